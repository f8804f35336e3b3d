/**
 * Keeps this browser's copy in step with the server, by one round after the other: what is pending is pushed, and then a pull
 * brings what is new and confirms what was pushed. A mutation that was pushed and is not yet confirmed is pushed again by the
 * next round, and the server skips it by its id.
 *
 * One window of a browser has a round at a time, by a lock: so two windows do not ask the same.
 */
import { backoff, Pause } from "./pause.js";
import { pull, push } from "./protocol.js";

/** How long to wait after a round, in milliseconds: short where no pokes are to be had, and a precaution where they are. */
const POLL = 4_000;
const POLL_BESIDE_POKES = 20_000;

/** What a round comes to in which this browser could not keep what it had to. */
const broken = (error) => ({ outcome: { kind: "broken", error: error.message }, confirmed: [] });

export class Sync {
  /** Whether pokes tell this window when to pull. */
  isPoked = false;
  #store;
  #seat;
  #told;
  #pause = new Pause();
  #failures = 0;

  /** `seat` is this window's; `told` gets what each round came to, and the mutations that it confirmed. */
  constructor(store, seat, told) {
    this.#store = store;
    this.#seat = seat;
    this.#told = told;
  }

  /** One round after the other, for as long as somebody is signed in. */
  async run() {
    for (;;) {
      const { outcome, confirmed } = await navigator.locks.request("rv-lists-round", () => this.#round()).catch(broken);
      if (outcome.kind === "gone") return;
      this.#failures = outcome.kind === "ok" ? 0 : this.#failures + 1;
      this.#told(outcome, confirmed);
      await this.#pause.take(this.#failures > 0 ? backoff(this.#failures) : this.isPoked ? POLL_BESIDE_POKES : POLL);
    }
  }

  /** Something outside has changed: begins the next round now. */
  wake() {
    this.#pause.end();
  }

  /** There is something to push: begins the next round now, unless the last one has failed and waits for its time. */
  nudge() {
    if (this.#failures === 0) this.wake();
  }

  async #round() {
    const session = await this.#store.session();
    if (session === undefined) return { outcome: { kind: "gone" } };
    // what was held back in a window that was closed meanwhile
    await this.#store.release(this.#seat, Date.now());
    const pushed = await this.#pushAll(session);
    // what is refused of a push says nothing of a pull, so that what others did is still seen
    const pulled = ["ok", "refused"].includes(pushed.kind) ? await pull(session) : pushed;
    const confirmed = pulled.kind === "ok" ? await this.#store.applyPull(session, pulled.answer) : [];
    if (pulled.kind === "anew") await this.#store.beginAnew(session.groupID);
    return { outcome: pushed.kind === "ok" ? pulled : pushed, confirmed };
  }

  async #pushAll(session) {
    let [outcome, last] = [{ kind: "ok" }, 0];
    while (outcome.kind === "ok") {
      const pending = await this.#store.nextPending(last);
      if (pending.length === 0) break;
      outcome = await push(session, pending);
      last = pending.at(-1).sequence;
    }
    return outcome;
  }
}
