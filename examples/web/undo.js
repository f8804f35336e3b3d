/**
 * The offer to undo what was deleted. A deletion is held back for some seconds (`hold` of store.js): all windows of the browser
 * show it, and each of them can take it back, but the server is not told yet. So what comes back is what was there, with what
 * others did to it meanwhile.
 */
import { byId, setText } from "./elements.js";

/** Whether a key is for the text that somebody types. */
const isTyping = (target) => target.matches("input:not([type='checkbox'])") && target.value !== "";

/** In a place of its own, so that what is told of the state of things does not cut it short. */
const announce = (text) => setText(byId("undo-news"), text);

export class Undo {
  #view;
  #actions;
  #told = 0;

  /** `actions` has `undo`, which tells whether it was in time, and `deleteNow`; `undone` gets the call that was taken back. */
  constructor(view, actions, undone) {
    this.#view = view;
    this.#actions = actions;
    byId("undo").addEventListener("click", () => this.#undo(undone));
    byId("delete-now").addEventListener("click", () => actions.deleteNow());
    addEventListener("keydown", (event) => {
      if (event.key !== "z" || !(event.ctrlKey || event.metaKey) || event.shiftKey || isTyping(event.target) || this.#last === undefined) return;
      event.preventDefault();
      this.#undo(undone);
    });
  }

  /** Offers to undo what was deleted last, as long as it is held back. */
  show() {
    const last = this.#last;
    byId("offer").hidden = last === undefined;
    if (last === undefined || last.sequence === this.#told) return;
    setText(byId("offer-text"), `Deleted “${last.label}”`);
    if (last.sequence > this.#told) announce(`Deleted “${last.label}”. Control and Z undo it.`);
    this.#told = last.sequence;
  }

  get #last() {
    return this.#view.held.at(-1);
  }

  async #undo(undone) {
    const last = this.#last;
    const isInTime = await this.#actions.undo(last.sequence);
    announce(isInTime ? `“${last.label}” is back` : `It is too late to undo: “${last.label}” is deleted`);
    if (isInTime) undone(last);
  }
}
