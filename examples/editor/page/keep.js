// The page in the browser itself: the log of its lines, and the window's own lines that the log hasn't brought yet, in IndexedDB. Each window
// has a copy of its own. One that was closed leaves its copy, with all that wasn't sent, to the next one that is opened on the page.
const SLOTS = 8;

const done = (request) => new Promise((tell, fail) => {
  request.onsuccess = () => tell(request.result);
  request.onerror = () => fail(request.error);
});

function opened() {
  const request = indexedDB.open("vemodel", 1);
  request.onupgradeneeded = () => ["about", "lines", "ahead"].forEach((name) => request.result.createObjectStore(name));
  return done(request);
}

// A name that no other window has: it is held until this one is closed.
async function freeSlot(page) {
  for (let k = 0; k < SLOTS; k++) {
    const name = `${page}:${k}`;
    const isOurs = await new Promise((tell) => {
      navigator.locks.request(`vemodel:${name}`, { ifAvailable: true }, (lock) => {
        tell(lock !== null);
        return lock && new Promise(() => {});
      });
    });
    if (isOurs) return name;
  }
  return null;
}

export class Keep {
  #store;
  #slot;
  #next = 0; // of the own lines the first that isn't kept yet

  constructor(store, slot) {
    this.#store = store;
    this.#slot = slot;
  }

  /** The copy of a page that this window has; nothing where the browser keeps none. */
  static async open(page) {
    try {
      const slot = await freeSlot(page);
      return slot && new Keep(await opened(), slot);
    } catch {
      return null;
    }
  }

  get #range() {
    return IDBKeyRange.bound([this.#slot, 0], [this.#slot, Infinity]);
  }

  #change(act) {
    const change = this.#store.transaction(["about", "lines", "ahead"], "readwrite", { durability: "relaxed" });
    act(...["about", "lines", "ahead"].map((name) => change.objectStore(name)));
    change.commit(); // also where the window is closed now
  }

  /** What was kept: `about` the log, its lines, and own ones that it has yet to bring. */
  async read() {
    const stores = this.#store.transaction(["about", "lines", "ahead"]);
    const about = await done(stores.objectStore("about").get(this.#slot));
    if (!about) return null;
    const [lines, ahead] = await Promise.all(["lines", "ahead"].map((name) => done(stores.objectStore(name).getAll(this.#range))));
    return { about, lines, ahead };
  }

  /** Another log takes the place of what was kept. */
  begin(about) {
    this.#next = 0;
    this.#change((abouts, lines, ahead) => {
      for (const store of [lines, ahead]) store.delete(this.#range);
      abouts.put(about, this.#slot);
    });
  }

  forget() {
    this.#change((abouts, lines, ahead) => {
      abouts.delete(this.#slot);
      for (const store of [lines, ahead]) store.delete(this.#range);
    });
  }

  note(about) {
    this.#change((abouts) => abouts.put(about, this.#slot));
  }

  /** Lines that the log brought, from a number on; and the own ones that it has yet to bring. */
  add(first, brought, { from, lines }) {
    this.#change((_, kept, ahead) => {
      brought.forEach((line, k) => kept.put(line, [this.#slot, first + k]));
      ahead.delete(IDBKeyRange.bound([this.#slot, -1], [this.#slot, from], false, true));
      const begin = Math.max(this.#next, from);
      lines.slice(begin - from).forEach((line, k) => ahead.put(line, [this.#slot, begin + k]));
    });
    this.#next = from + lines.length;
  }
}
