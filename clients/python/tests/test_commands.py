"""The commands over the program and the C library, with the replies of docs/FORMAT.md and of the scripts in examples/."""
from __future__ import annotations

import json
from collections.abc import Callable
from typing import Any

from vemodel import Cell, Changes, Core, Ended, Foreign, Ack, Grid, Node, Patch, Reference, Refused, Selection, Served

from cores import OverLibrary, OverProgram, needs_library
from examples import called, compact, scripts


class Commands(OverProgram):
    def refused(self, call: Callable[..., object], *given: Any, **named: Any) -> Refused:
        with self.assertRaises(Refused) as caught:
            call(*given, **named)
        return caught.exception

    def same(self, answer: Callable[[Core, str], str]) -> None:
        """Compares what `answer` gives for each line of each script, from a core without a page on, with its reply."""
        for name, lines in scripts():
            with self.begin() as core:
                for number, (line, reply) in enumerate(lines, 1):
                    self.assertEqual(answer(core, line), reply, f"{name}:{number}")

    def test_every_raw_line_of_the_examples(self) -> None:
        self.same(Core.line)

    def test_every_command_of_the_examples(self) -> None:
        self.same(called)

    def test_values(self) -> None:
        core = self.core
        self.assertEqual(core.open("<p>ab</p>"), 6)
        self.assertEqual(core.text(2, "X"), 7)
        self.assertEqual(core.html(), "<p>aXb</p>")
        self.assertEqual(core.tree(), ["root", ["p", 3], ["internal_list"]])
        self.assertEqual(core.mark(2, 3, "b"), 7)
        self.assertEqual(core.data(1, 4), ["a", ["X", [["b", []]]], "b"])
        self.assertEqual(core.undo(), 7)
        self.assertEqual(core.at(1), Node("p", 0, 5, "content"))
        self.assertEqual(core.near(0, "ahead"), 1)
        self.assertEqual(core.select(anchor=1, focus=1), Selection(1, 1))
        self.assertEqual(core.caret().focus, 1)

    def test_what_changed(self) -> None:
        core = self.core
        core.open("<p>ab</p>")
        self.assertEqual(core.changes(), Changes(6, [Patch(at=0, removed=0, inserted=6)]))
        core.text(2, "X")
        core.mark(1, 3, "b")
        self.assertEqual(core.changes(), (7, [(2, 0, 1), (1, 2, 2)]))
        self.assertEqual(core.changes(site=0).patches, [])

    def test_grid(self) -> None:
        core = self.core
        cells = [Cell(3, 0, 0, 2, 1), Cell(8, 0, 1, 1, 1), Cell(15, 1, 1, 1, 1), Cell(22, 2, 0, 1, 1)]
        core.open(
            '<table><tbody><tr><td rowspan="2">a</td><td>b</td></tr><tr><td>c</td></tr><tr><td>d</td></tr></tbody></table>'
        )
        self.assertEqual(core.grid(0), Grid(3, 2, cells))

    def test_refs(self) -> None:
        line, reply = next(
            (above, reply)
            for _, lines in scripts()
            for (above, _), (line, reply) in zip(lines, lines[1:])
            if line == '{"do":"refs"}' and above.startswith('{"do":"open"')
        )
        self.core.line(line)
        found = self.core.refs()
        self.assertIsInstance(found[0], Reference)
        self.assertEqual(f"ok {compact(found)}", reply)

    def test_wrap_by_kinds_alone(self) -> None:
        self.core.open("<p>a</p>")
        self.core.wrap(0, 3, wrap_outer=["ul"], wrap_each=[("li", {"id": "x"})])
        self.assertEqual(self.core.html(), '<ul><li id="x"><p>a</p></li></ul>')

    def test_two_sites(self) -> None:
        core = self.core
        core.open("<p>abcd</p>", sites=2)
        core.remove(1, 3)
        core.text(2, "X", site=1)
        self.assertEqual((core.send(), core.send(site=1)), (1, 1))
        self.assertEqual(core.serve(), Served(1, 1, None))
        self.assertEqual(core.serve(site=1), Served(0, 1, ((1, 3), (2, 2))))
        self.assertEqual(core.take(site=1), Foreign(1, 1))
        self.assertEqual(core.take(site=1), Ack(0))

    def test_refusals(self) -> None:
        core = self.core
        refused = self.refused(core.html)
        self.assertEqual((refused.word, refused.numbers, str(refused)), ("not_open", (), "not_open"))
        refused = self.refused(core.open, "a<1>")
        self.assertEqual((refused.words, refused.numbers), (("html", "bad_tag"), (1,)))
        core.open('<p id="x">ab</p><ul><li>c</li></ul>')
        type_x = {"do": "text", "at": 1, "text": "x"}
        refused = self.refused(core.batch, [type_x, {"do": "remove", "from": 9, "to": 30}])
        self.assertEqual((refused.words, refused.numbers), (("batch", "bad_range"), (1, 9, 30)))
        self.assertEqual(self.refused(core.text, -1, "").words, ("bad_command", "at"))

    def test_characters_are_counted_as_python_counts_them(self) -> None:
        text = "a\U0001f600\u2028b"
        self.assertEqual(self.core.open(f"<p>{text}</p>"), len(text) + 4)
        self.assertEqual(self.core.html(), f"<p>{text}</p>")

    def test_a_newline_in_a_text_but_none_in_a_line(self) -> None:
        self.core.open("<p>ab</p>")
        self.core.text(2, "\n")
        self.assertEqual(self.core.html(), "<p>a\nb</p>")
        with self.assertRaises(ValueError):
            self.core.line('{"do":\n"html"}')
        with self.assertRaises(ValueError):
            self.core.text(2, "\ud800")
        self.assertEqual(self.core.html(), "<p>a\nb</p>")

    def test_close_twice(self) -> None:
        self.core.close()
        self.core.close()
        with self.assertRaises(Ended) as caught:
            self.core.html()
        self.assertEqual(caught.exception.status, 0)

    def test_lines_ahead(self) -> None:
        """More than the pipes hold, on either side."""
        page = f"<p>{'x' * 100_000}</p>"
        lines = [json.dumps({"do": "open", "page": page}), '{"do":"html"}', "{"] * 10
        self.assertEqual(self.core.lines(lines), ["ok 100004", f'ok "{page}"', "no bad_json"] * 10)
        self.assertEqual(self.core.lines([]), [])
        with self.assertRaises(ValueError):
            self.core.lines(['{"do":"undo"}', "\n"])

    def test_members_that_the_table_has_and_format_adds(self) -> None:
        """A member of which an older core knows nothing isn't in its way."""
        self.core.open("<p>ab</p>")
        self.assertEqual(self.core.apply([{"retain": 6}], exact=True), 6)
        self.assertEqual(self.refused(self.core.revoke, 0, live=True).words, ("bad_entry",))


@needs_library
class CommandsOverTheLibrary(OverLibrary, Commands):
    pass
