// A WebSocket that comes back. What is said while it is away is lost: who uses it says again what wasn't answered, once it is open.
const PAUSE = 100, MOST_PAUSE = 5000; // milliseconds until it tries again, about: twice as many each time
const LEFT = 1000; // the code by which the seat is given back

export class Connection {
  #url;
  #heard;
  #socket = null;
  #pause = PAUSE;
  #isOver = false;

  /**
   * @param {string} url
   * @param {{ opened(): void, said(message: object): void, away(): void }} heard
   */
  constructor(url, heard) {
    this.#url = url;
    this.#heard = heard;
    this.#open();
  }

  /** @param {object} message */
  say(message) {
    if (this.#socket?.readyState === WebSocket.OPEN) this.#socket.send(JSON.stringify(message));
  }

  close() {
    this.#isOver = true;
    this.#socket?.close(LEFT);
  }

  #open() {
    const socket = (this.#socket = new WebSocket(this.#url));
    socket.onopen = () => this.#heard.opened();
    socket.onmessage = ({ data }) => {
      this.#pause = PAUSE;
      this.#heard.said(JSON.parse(data));
    };
    // One that can't be opened has an error, and not everywhere an end.
    socket.onclose = socket.onerror = () => {
      if (this.#isOver || socket !== this.#socket) return;
      this.#socket = null;
      this.#heard.away();
      setTimeout(() => this.#open(), this.#pause * (0.5 + Math.random()));
      this.#pause = Math.min(2 * this.#pause, MOST_PAUSE);
    };
  }
}
