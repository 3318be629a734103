// References are shown by their numbers: in each group the keys count from 1, in the order in which they come first.
import { HIDDEN, isText } from "./tree.js";

function* referencesIn(nodes) {
  for (const node of nodes) {
    if (node.kind === "ref") yield node;
    else if (!isText(node) && node.kind !== HIDDEN) yield* referencesIn(node.kids);
  }
}

/** @type {(nodes: TreeNode[]) => boolean} */
export const hasReference = (nodes) => !referencesIn(nodes).next().done;

/**
 * Each reference of the page with its label.
 * @param {TreeNode} root
 * @returns {Generator<[TreeNode, string]>}
 */
export function* labels(root) {
  const groups = new Map();
  for (const node of referencesIn(root.kids)) {
    const [group, key] = node.open.ref ?? ["", ""];
    if (!groups.has(group)) groups.set(group, new Map());
    const numbers = groups.get(group);
    if (!numbers.has(key)) numbers.set(key, numbers.size + 1);
    yield [node, `[${group && `${group} `}${numbers.get(key)}]`];
  }
}
