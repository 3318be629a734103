// How many windows a page may have: each site takes memory in each of them.
const LONG = 250_000; // characters
/** @type {(page: string) => number} */
export const sitesFor = (page) => (page.length < LONG ? 8 : 4);
