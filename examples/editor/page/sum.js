// A number for a list of lines, by which two logs are told apart: FNV's, over the UTF-16 units of all lines before and of this one.
/** @type {(sum: number, line: string) => number} */
export function sumOf(sum, line) {
  let next = sum ^ 0x811c9dc5;
  for (let k = 0; k < line.length; k++) next = Math.imul(next ^ line.charCodeAt(k), 0x01000193);
  return next >>> 0;
}
