// What goes over the wire: the log's lines come by server-sent events, and own lines go by POST. A request that is lost is sent again: the
// server counts each site's lines, and passes those that it has.
const PAUSE = 500; // milliseconds between two tries
const GONE = 410; // the server doesn't know the window, as where its log was begun anew

export class Link {
  isThere = false;
  #page;
  #heard;
  #claim;
  #events = null;
  #trying; // a timer
  #id = null;
  #session = null;
  #written = 0; // how many of the site's lines the server has
  #presence = null; // what the others are to be told
  #isWriting = false;

  /** `heard` has a function for each event: hello, lines, presence, left, ended, and lost, where the server isn't there. */
  constructor(page, heard) {
    this.#page = page;
    this.#heard = heard;
  }

  /** Asks for the page's log, again and again until it is there. `claim` says what the window has of it. */
  connect(claim) {
    this.#stop();
    this.#claim = claim;
    const events = new EventSource(`events?${new URLSearchParams({ page: this.#page, ...claim() })}`);
    this.#events = events;
    const on = (event, act) => events.addEventListener(event, ({ data }) => act(JSON.parse(data)));
    on("hello", (hello) => {
      this.#id = hello.id;
      this.#heard.hello(hello);
    });
    for (const event of ["lines", "presence", "left"]) on(event, this.#heard[event]);
    on("ended", ({ why }) => this.#refuse(why));
    // the browser's own tries would claim what the window had at first
    events.onerror = () => this.#lose();
  }

  #stop() {
    clearTimeout(this.#trying);
    this.#events?.close();
    this.isThere = false;
  }

  #lose() {
    this.#stop();
    this.#heard.lost();
    this.#trying = setTimeout(() => this.reconnect(), PAUSE);
  }

  reconnect() {
    this.connect(this.#claim);
  }

  /** From now on own lines go to the server. */
  begin(session) {
    this.#session = session;
    this.#written = 0;
    this.isThere = true;
    session.resume();
  }

  write() {
    this.#post();
  }

  /** Where this window's selection is, for the others. */
  tell(presence) {
    this.#presence = presence;
    this.#post();
  }

  /** Gives the server another log in the place of one that nobody wrote to. Whether it took it. */
  async seed(old, log, lines) {
    const answer = await this.#ask("log", { old, log, lines });
    return answer?.ok ?? false;
  }

  #ask(what, body) {
    const query = new URLSearchParams({ page: this.#page });
    return fetch(`${what}?${query}`, { method: "POST", body: JSON.stringify(body) }).catch(() => null);
  }

  // Lines that come while others are on their way go together after these.
  async #post() {
    if (this.#isWriting || !this.isThere) return;
    this.#isWriting = true;
    await null; // what is done at once goes at once
    for (let body; this.isThere && (body = this.#next()); ) {
      const answer = await this.#ask("lines", body);
      if (answer?.ok) this.#written = Math.max(this.#written, body.from + body.lines.length);
      else if (answer && answer.status < 500 && answer.status !== GONE) this.#refuse(await answer.text());
      else this.#lose();
    }
    this.#isWriting = false;
  }

  // The server takes no more of this window.
  #refuse(why) {
    this.#stop();
    this.#heard.ended({ why });
  }

  #next() {
    const { from, lines } = this.#session.ahead;
    const begin = Math.max(from, this.#written), presence = this.#presence;
    const rest = lines.slice(begin - from);
    this.#presence = null;
    return rest.length || presence ? { id: this.#id, from: begin, lines: rest, presence } : null;
  }
}
