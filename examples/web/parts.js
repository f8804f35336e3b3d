/**
 * The items of a long list, in parts. The browser lays out and paints only the parts that are near what is in sight
 * (`content-visibility` in style.css), so a change costs the same in a long list as in a short one; all items are in the page
 * all the same, to be found, read out and reached by keys. The parts say nothing to who does not see them.
 */
import { element, putBefore } from "./elements.js";

/** A part that has more items than this is made two. */
const MOST = 60;

export class Parts {
  #list;

  constructor(list) {
    this.#list = list;
  }

  get items() {
    return [...this.#list.children].flatMap((part) => [...part.children]);
  }

  get last() {
    return this.#list.lastElementChild?.lastElementChild ?? null;
  }

  nextOf(item) {
    return item.nextElementSibling ?? item.parentElement.nextElementSibling?.firstElementChild ?? null;
  }

  /** Has the item stand before `next`, or as the last where that is null. Where it does already, nothing is touched. */
  put(item, next) {
    const before = item.parentElement;
    if (before !== null && this.nextOf(item) === next) return;
    const part = next?.parentElement ?? this.#list.lastElementChild ?? this.#makePart(null);
    putBefore(part, item, next);
    if (before !== null) this.#tidy(before);
    if (part.children.length > MOST) {
      const other = this.#makePart(part);
      for (const moved of [...part.children].slice(0, MOST / 2)) putBefore(other, moved, null);
    }
  }

  remove(item) {
    const part = item.parentElement;
    item.remove();
    this.#tidy(part);
  }

  clear() {
    this.#list.replaceChildren();
  }

  #makePart(next) {
    const part = element("div", { className: "part", role: "presentation" });
    this.#list.insertBefore(part, next);
    return part;
  }

  #tidy(part) {
    if (part.children.length === 0) part.remove();
  }
}
