/** Todos and lists out of all lists: those in which a text was found, or the todos that are completed. */
import { byId, element, follow, setText } from "./elements.js";
import { addressOf } from "./place.js";

/** How many are shown at most. */
const MOST = 200;

const plain = (text) => text.toLocaleLowerCase();

export class Found {
  #view;

  constructor(view) {
    this.#view = view;
  }

  /** Shows what is found at such a place; nothing where it is another one. */
  show({ text, isCompleted }) {
    byId("found").hidden = text === undefined && !isCompleted;
    if (byId("found").hidden) return;
    const found = isCompleted ? this.#find(() => false, ({ complete }) => complete) : this.#search(plain(text));
    setText(byId("found-title"), isCompleted ? "Completed" : `Search for “${text}”`);
    const count = found.length === 1 ? "1 found" : `${found.length} found`;
    setText(byId("found-sum"), found.length > MOST ? `${count}, of which the first ${MOST} are shown` : count);
    follow(byId("found-items"), found.slice(0, MOST), make, update);
  }

  #search(text) {
    if (text === "") return [];
    const has = (other) => plain(other).includes(text);
    return this.#find(({ name }) => has(name), (todo) => has(todo.text));
  }

  /** The lists and the todos that are wanted, each with its own address as its id. */
  #find(isListWanted, isTodoWanted) {
    return this.#view.lists.flatMap((list) => {
      const todos = this.#view.todosOf(list.id).filter(isTodoWanted);
      const found = todos.map(({ id, text, complete }) => ({ id: addressOf(list.id, id), text, complete, where: `in ${list.name}` }));
      return isListWanted(list) ? [{ id: addressOf(list.id), text: list.name, complete: false, where: "a list" }, ...found] : found;
    });
  }
}

function make(address) {
  return element("li", {}, element("a", { href: address }, element("span", { className: "text" }), element("span", { className: "where" })));
}

function update(item, { text, complete, where }) {
  const [shown, place] = item.firstElementChild.children;
  setText(shown, text);
  setText(place, complete ? `completed, ${where}` : where);
  item.classList.toggle("complete", complete);
}
