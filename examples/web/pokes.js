/**
 * Listens for pokes over a WebSocket. A poke carries nothing: it says that a pull would bring something. One that is missed
 * loses nothing, since a window polls too.
 *
 * The server serves at most 16 links at once, so only one window of a browser has one: the first that asks for the lock.
 */
import { backoff, Pause } from "./pause.js";

const address = () => Object.assign(new URL("poke", location.href), { protocol: location.protocol.replace("http", "ws"), hash: "" }).href;

/** The server's answer to a key that no account has. */
const DENIED = 1008;

export class Pokes {
  #socket;
  #key;
  #poked;
  #linked;
  #pause = new Pause();

  /** `key` gives the key, `poked` is called at each poke, and `linked` as a link begins (true) and as it ends (false). */
  constructor({ key, poked, linked }) {
    this.#key = key;
    this.#poked = poked;
    this.#linked = linked;
  }

  /** Has one link after the other, once no other window of this browser has one. */
  run() {
    return navigator.locks.request("rv-lists-pokes", async () => {
      for (let failures = 1; ; failures += 1) {
        if (await this.#link()) failures = 1;
        await this.#pause.take(backoff(failures));
      }
    });
  }

  /** Ends a link that may be dead, as after a change of the network, and begins the next one now. */
  renew() {
    this.#socket?.close();
    this.#pause.end();
  }

  /** One link, from its beginning to its end: whether the server took it. */
  #link() {
    return new Promise((resolve) => {
      let isTaken = false;
      this.#socket = new WebSocket(address());
      this.#socket.onopen = () => {
        isTaken = true;
        this.#socket.send(this.#key());
        this.#linked(true);
      };
      this.#socket.onmessage = () => this.#poked();
      this.#socket.onclose = ({ code }) => {
        this.#linked(false);
        resolve(isTaken && code !== DENIED);
      };
    });
  }
}
