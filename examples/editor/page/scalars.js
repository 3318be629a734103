// The program counts Unicode scalar values, and JavaScript's strings count UTF-16 units. Only this file turns one into the other.
const isPair = (text, k) => (text.charCodeAt(k) & 0xfc00) === 0xd800 && (text.charCodeAt(k + 1) & 0xfc00) === 0xdc00;

/**
 * How many scalar values the first `units` units hold; a pair that is cut in the middle counts.
 * @type {(text: string, units?: number) => number}
 */
export function scalars(text, units = text.length) {
  let count = 0;
  for (let k = 0; k < units; k += isPair(text, k) ? 2 : 1) count++;
  return count;
}

/**
 * How many units the first `count` scalar values take.
 * @type {(text: string, count: number) => number}
 */
export function units(text, count) {
  let k = 0;
  for (; count > 0 && k < text.length; count--) k += isPair(text, k) ? 2 : 1;
  return k;
}
