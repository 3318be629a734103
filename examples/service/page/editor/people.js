// In the place of examples/editor's own people.js: names are those that the service tells. The editor has a colour for each of eight.
const COLOURS = 8;

class People {
  me = "";
  mine = 0; // this window's colour
  #colours = new Map(); // by the number of whoever is here
  #names = new Map(); // by the colour

  came(who, name) {
    const taken = new Set([this.mine, ...this.#colours.values()]);
    const free = Array.from({ length: COLOURS }, (_, k) => k).find((colour) => !taken.has(colour)) ?? who % COLOURS;
    const colour = this.#colours.get(who) ?? free;
    this.#colours.set(who, colour);
    this.#names.set(colour, name);
    return colour;
  }

  gone(who) {
    const colour = this.#colours.get(who);
    this.#colours.delete(who);
    return colour;
  }

  /** Nobody is known to be here. Gives the colours of those who were. */
  clear() {
    const colours = [...this.#colours.values()];
    this.#colours.clear();
    return colours;
  }

  nameOf(colour) {
    return colour === this.mine ? this.me : (this.#names.get(colour) ?? "");
  }
}

export const people = new People();
export const nameOf = (colour) => people.nameOf(colour);
