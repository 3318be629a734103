// Addresses in pages: which may be shown, and what a user means who types one.
/** @type {(url: string) => boolean} */
export const isSafe = (url) => /^(https?:|mailto:|[^:]*$|[^:]*[/?#])/i.test(url.trim());
/** @type {(url: string) => boolean} */
export const isPicture = (url) => /^(https?:|\/\/|data:image\/|\.{0,2}\/|[^:]*$)/i.test(url.trim());
/** @type {(url: string) => string} */
export const withScheme = (url) => (/^([a-z][a-z0-9+.-]*:|[./#?])/i.test(url) ? url : "https://" + url);
