// One window: each case has a page, what a person does, and the page that is wanted; or what the screen shows in the end.
import { shows } from "../person.mjs";
import { casesOf } from "./steps.mjs";

const PICTURE = "data:image/gif;base64,R0lGODlhAQABAIAAAP///wAAACwAAAAAAQABAAACAkQBADs=";
const IMAGE = `<img src="${PICTURE}" width="40" height="40">`;
const LINK = '<a rel="mw:WikiLink" href="./Cat" title="Cat">cat</a>';
const TEMPLATE = `<span about="#mwt1" typeof="mw:Transclusion" data-mw='{"parts":[{"template":{"target":{"wt":"cite"}}}]}'>CITED</span>`;
const THUMB = '<figure typeof="mw:File/Thumb"><a href="./File:Cat.jpg"><img resource="./File:Cat.jpg" src="//example.org/cat.jpg">' +
  "</a><figcaption>A cat that sits</figcaption></figure>";
const P = "<p></p>";

function ref(name, body) {
  const data = { name: "ref", attrs: { name }, ...(body && { body: { html: body } }) };
  return `<sup typeof="mw:Extension/ref" data-mw='${JSON.stringify(data)}'></sup>`;
}

function table(...rows) {
  const written = rows.map((cells) => `<tr>${cells.map((text) => `<td>${text}</td>`).join("")}</tr>`);
  return `<table><tbody>${written.join("")}</tbody></table>`;
}

const typing = [
  ["a letter, a sign of two units, Backspace, Delete", "<p>ab</p>",
    [["click", "a"], ["type", "x😀y"], ["keys", "Backspace", "Delete"]], "<p>ax😀</p>"],
  ["Enter after a heading", "<h2>On cats</h2>",
    [["click", "cats"], ["keys", "Enter"], ["type", "Tail"]], "<h2>On cats</h2><p>Tail</p>"],
  ["Enter over a selection of two paragraphs", "<p>abc</p><p>def</p>",
    [["click", "ab"], ["keys", "shift+End", "shift+ArrowRight", "shift+ArrowRight", "Enter"]], "<p>ab</p><p>ef</p>"],
  ["typing over two kinds of paragraph", "<h2>abc</h2><p>d<b>ef</b></p>",
    [["click", "ab"], ["keys", "shift+End", "shift+ArrowRight", "shift+ArrowRight"], ["type", "-"]], "<h2>ab-<b>ef</b></h2>"],
  ["a mark for the next letters, and its end", "<p>ab</p>",
    [["click", "a"], ["keys", "ctrl+b"], ["type", "X"], ["keys", "ctrl+b"], ["type", "y"]], "<p>a<b>X</b>yb</p>"],
  ["underline", "<p>one two</p>", [["over", "two"], ["keys", "ctrl+u"]], "<p>one <u>two</u></p>"],
  ["a break in text", "<p>ab</p>", [["click", "a"], ["keys", "shift+Enter"], ["type", "x"]], "<p>a<br>xb</p>"],
  ["a list by the button, an item, one deeper, the end of the list", "<p>one</p>",
    [["click", "one"], ["press", "ul"], ["keys", "Enter"], ["type", "two"], ["keys", "Tab", "Enter"], ["type", "three"],
      ["keys", "shift+Tab", "Enter", "Enter"], ["type", "end"]],
    "<ul><li><p>one</p><ul><li><p>two</p></li></ul></li><li><p>three</p></li></ul><p>end</p>"],
  ["Backspace at the beginning of an item", "<ul><li>one</li><li>two</li></ul>",
    [["click", "two"], ["keys", "Home", "Backspace", "Backspace"]], "<ul><li>onetwo</li></ul>"],
  ["undo and redo, and what is typed elsewhere", "<p>ab</p>",
    [["click", "a"], ["type", "xy"], ["click", "b"], ["type", "z"], ["keys", "ctrl+z", "ctrl+z", "ctrl+y"]], "<p>axyb</p>"],
];

const selecting = [
  ["Backspace after a click on a picture", `<p>letters ${IMAGE} here</p>`,
    [["click", "lett"], ["on", "#page img"], ["keys", "Backspace"]], "<p>letters  here</p>"],
  ["Delete after a click on a template", `<p>x ${TEMPLATE} y</p>`, [["on", "#page .leaf"], ["keys", "Delete"]], "<p>x  y</p>"],
  ["Backspace after a click on a block that is kept whole", `<p>a</p>${THUMB}<p>b</p>`,
    [["on", "#page .leaf"], ["keys", "Backspace"]], "<p>a</p><p>b</p>"],
  ["three clicks on an item", "<ul><li>one</li><li>two</li><li>three</li></ul>",
    [["triple", "two"], ["type", "X"]], "<ul><li>one</li><li>X</li><li>three</li></ul>"],
  ["three clicks in a cell", table(["a word", "b"]), [["triple", "a word"], ["keys", "Backspace"]], table([P, "b"])],
  ["three clicks and a heading", "<p>one</p><p>two</p>",
    [["triple", "one"], ["choose", "Kind of paragraph", "h2"]], "<h2>one</h2><p>two</p>"],
];

const composing = [
  ["a word", "<p>ab</p>", [["click", "a"], ["compose", ["に", "にほん", "日本"]]], "<p>a日本b</p>"],
  ["over a word, as phones do", "<h1>Cats</h1>", [["click", "Cats"], ["compose", ["Catsy"], 4]], "<h1>Catsy</h1>"],
  ["over a word that is corrected", "<p>teh <b>end</b></p>", [["click", "teh"], ["compose", ["the"], 3]], "<p>the <b>end</b></p>"],
  ["a letter that is doubled", "<p>a bookeper</p>", [["click", "bookeper"], ["compose", ["bookkeeper"], 8], ["type", "s"]],
    "<p>a bookkeepers</p>"],
  ["over a selection", "<p>one two three</p>", [["over", "two"], ["compose", ["zwei"]]], "<p>one zwei three</p>"],
  ["that is given up", "<p>ab</p>", [["click", "a"], ["compose", ["に", ""]], ["type", "x"]], "<p>axb</p>"],
];

const menu = (word, wanted) => [`the menu's ${word}`, `<p>x</p>${table(["a", "b"])}`,
  [["click", "b"], ["choose", "Rows and columns", word]], `<p>x</p>${wanted}`];

const tables = [
  ["a new one, and Tab from cell to cell", "<p>a</p>",
    [["click", "a"], ["press", "table"], ["type", "1"], ["keys", "Tab", "Tab"], ["type", "3"], ["keys", "shift+Tab"], ["type", "2"]],
    `<p>a</p>${table(["<p>1</p>", "<p>2</p>", "<p>3</p>"], [P, P, P])}`],
  ["Tab in the last cell", table(["a", "b"]), [["click", "b"], ["keys", "Tab", "Tab"], ["type", "c"]], table(["a", "b"], ["<p>c</p>", P])],
  menu("row_above", table([P, P], ["a", "b"])),
  menu("row_below", table(["a", "b"], [P, P])),
  menu("row_gone", "<table><tbody></tbody></table>"),
  menu("column_before", table(["a", P, "b"])),
  menu("column_after", table(["a", "b", P])),
  menu("column_gone", table(["a"])),
  menu("table_gone", ""),
];

const fields = [
  ["a picture by its address", "<p>ab</p>", [["click", "a"], ["field", "picture", "example.org/a.png", "A cat"]],
    '<p>a<img src="https://example.org/a.png" alt="A cat">b</p>'],
  ["a link by its address", "<p>ab</p>", [["over", "ab"], ["field", "link", "example.org"]], '<p><a href="https://example.org">ab</a></p>'],
];

const WORD = `<html xmlns:o="urn:schemas-microsoft-com:office:office"><head><meta name=Generator content="Microsoft Word 15">
<style>p.MsoNormal{margin:0}</style></head><body lang=EN-US><!--StartFragment-->
<h1><span style='mso-fareast-font-family:"Times New Roman"'>Report<o:p></o:p></span></h1>
<p class=MsoNormal><b><span style='font-size:12.0pt'>Bold</span></b> and <i>italic</i> and <span style='font-weight:bold'>styled
bold</span> <u>under</u><o:p>&nbsp;</o:p></p>
<p class=MsoListParagraphCxSpFirst style='mso-list:l0 level1 lfo1'><![if !supportLists]><span style='mso-list:Ignore'>·<span>&nbsp;
</span></span><![endif]>First bullet</p>
<p class=MsoListParagraphCxSpMiddle style='mso-list:l0 level2 lfo1'><span style='mso-list:Ignore'>o<span>&nbsp; </span></span>Deeper</p>
<p class=MsoListParagraphCxSpLast style='mso-list:l0 level1 lfo1'><span style='mso-list:Ignore'>·<span>&nbsp; </span></span>Second</p>
<p class=MsoListParagraph style='mso-list:l1 level1 lfo2'><span style='mso-list:Ignore'>1.<span>&nbsp; </span></span>One</p>
<table class=MsoTableGrid border=1><tr><td width=100 valign=top><p class=MsoNormal>c1</p></td><td colspan=2><p>c2</p></td></tr></table>
<p class=MsoNormal><a href="https://example.org/">link</a> <a href="file:///C:/x.doc">file</a>
<img width=10 height=10 src="file:///C:/x.png" v:shapes="a"></p><!--EndFragment--></body></html>`;
const OF_WORD = "<h1>Report</h1><p><b>Bold</b> and <i>italic</i> and <b>styled bold</b> <u>under</u></p><ul><li><p>First bullet</p>" +
  "<ul><li><p>Deeper</p></li></ul></li><li><p>Second</p></li></ul><ol><li><p>One</p></li></ol><table><tbody><tr><td><p>c1</p></td>" +
  '<td colspan="2"><p>c2</p></td></tr></tbody></table><p><a href="https://example.org/">link</a> file</p>';

const GOOGLE = `<meta charset='utf-8'><b style="font-weight:normal;" id="docs-internal-guid-1"><h2 dir="ltr">
<span style="font-size:16pt;font-weight:400">Head</span></h2><p dir="ltr"><span style="font-weight:700;">bold</span><span> plain </span>
<span style="font-style:italic">it</span></p><br/><ul><li dir="ltr" aria-level="1"><p dir="ltr" role="presentation"><span>one</span></p>
</li><ul><li aria-level="2"><p><span>nested</span></p></li></ul><li><p><span>two</span></p></li></ul></b>`;
const OF_GOOGLE = "<h2>Head</h2><p><b>bold</b> plain <i>it</i></p>" +
  "<ul><li><p>one</p><ul><li><p>nested</p></li></ul></li><li><p>two</p></li></ul>";

const BROWSER = `<meta charset="utf-8"><p style="color:red" onclick="hacked = 1">One<br>&amp;&nbsp;<a href="javascript:hacked = 1">two</a></p>
<script>hacked = 1</script><div id="x">thr<font color="red">ee</font></div>`;
const LINKED = '<a href="https://example.org/" rel="nofollow" title="there">l</a>';
const FORM = "<form><img name=childNodes><input name=nodeType><img name=firstChild>shown</form>";

const pasting = [
  ["Word", "<p>x</p>", [["click", "x"], ["paste", WORD]], `<p>x</p>${OF_WORD}`],
  ["Google's documents", "<p>x</p>", [["click", "x"], ["paste", GOOGLE]], `<p>x</p>${OF_GOOGLE}`],
  ["a browser, with scripts and styles", "<p>x</p>", [["click", "x"], ["paste", BROWSER]],
    "<p>x</p><p>One<br>&amp;&nbsp;two</p><p>three</p>"],
  ["a form whose members are hidden by names", "<p>x</p>", [["click", "x"], ["paste", FORM]], "<p>xshown</p>"],
  ["another program's link with its rel", "<p>x</p>", [["click", "x"], ["paste", LINKED]], `<p>x${LINKED}</p>`],
  ["a row, a table and a list that hold nothing", "<p>x</p>",
    [["click", "x"], ["paste", "<table><tr><td>q<tr><p>o</table><table></table><ul></ul><p>y"]],
    "<p>x</p><p>o</p><table><tbody><tr><td><p>q</p></td></tr></tbody></table><p>y</p>"],
  ["20,000 elements in one another", "<p>x</p>", [["click", "x"], ["paste", `${"<div>".repeat(20000)}deep`]], "<p>xdeep</p>"],
  ["a copied bold link with its rel, for this page and for others", `<p>a <b>b${LINK}</b> c</p><p>end</p>`,
    [["over", "cat"], ["copy", `<b>${LINK}</b>`], ["click", "end"], ["back"]], `<p>a <b>b${LINK}</b> c</p><p>end<b>${LINK}</b></p>`],
  ["a part of a text that is dragged elsewhere", "<p>one two three</p><p>last</p>", [["drag", "two", "last"]],
    "<p>one  three</p><p>lasttwo</p>"],
  ["text that is dragged elsewhere", "<p>one <b>two</b> three</p><p>last</p>", [["drag", "two", "last"]],
    "<p>one  three</p><p>last<b>two</b></p>"],
  ["what another program drags, after text that was dragged here", "<p>one two three</p><p>last</p>",
    [["drag", "two", "last"], ["drop", "<b>new</b>", "three"]], "<p>one  three<b>new</b></p><p>lasttwo</p>"],
];

export const cases = casesOf({ typing, selecting, composing, tables, fields, pasting });

/** What the screen shows of leaves: a page, and the texts of its boxes. */
export const boxes = [
  ["references by their numbers", `<p>a${ref("x", "one")}${ref("y", "two")}${ref("x")}</p>`, ["[1]", "[2]", "[1]"]],
  ["MediaWiki's pictures by their captions", `<p>a</p>${THUMB}`, ["A cat that sits"]],
  ["a template by what it shows", `<p>${TEMPLATE}</p>`, ["CITED"]],
  ["a template that shows nothing by its name", `<p>a</p>${TEMPLATE.replace("CITED", "")}`, ["Template: cite"]],
  ["a comment", "<p>a</p><!-- later -->", ["Comment: later"]],
  ["what is kept whole by its tag", "<p>a</p><hr>", ["‹hr›"]],
].map(([name, page, wanted]) => ({ name: `boxes: ${name}`, page, wanted }));
export const boxesOf = (person) => shows(person, "#page .leaf");
