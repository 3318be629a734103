// Who is who: the site of a window has a name here and a colour in editor.css.
const NAMES = ["Ada", "Ben", "Cleo", "Dan", "Eva", "Finn", "Gus", "Hana"];
/** @type {(site: number) => string} */
export const nameOf = (site) => NAMES[site];
