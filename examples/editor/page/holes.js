// Where in a list the items stand that came by patches.

/**
 * Where each run of them begins and ends, in the list that all of the patches left.
 * @type {(patches: Patch[]) => number[][]}
 */
export function holes(patches) {
  let runs = [];
  for (const [at, removed, inserted] of patches) {
    const end = at + removed, grown = inserted - removed;
    const before = runs.filter(([from]) => from < at).map(([from, to]) => [from, Math.min(to, at)]);
    const after = runs.filter(([, to]) => to > end).map(([from, to]) => [Math.max(from, end) + grown, to + grown]);
    runs = [...before, [at, at + inserted], ...after].filter(([from, to]) => from < to);
  }
  return runs.reduce((joined, run) => {
    if (joined.at(-1)?.[1] === run[0]) joined.at(-1)[1] = run[1];
    else joined.push(run);
    return joined;
  }, []);
}
