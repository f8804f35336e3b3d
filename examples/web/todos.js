/** The todos of one list: how each is shown, checked, renamed, moved and deleted. */
import { byId, element, setText } from "./elements.js";
import { Parts } from "./parts.js";
import { makeMovable } from "./reorder.js";
import { placeOf } from "./rows.js";
import { moveCalls } from "./view.js";

/** Whether this window hides what is completed, as long as it lives. */
const HIDES = "rv-lists-hides-completed";
const hidesCompleted = () => sessionStorage.getItem(HIDES) === "true";

export class Todos {
  #list = { todos: [] };
  #items = new Map();
  #parts = new Parts(byId("todos"));
  #waiting = new Set();
  #mutate;
  #hold;
  #announce;

  /** `mutate` takes calls, `hold` one that can be undone, `announce` what a person who does not see the page should hear. */
  constructor({ mutate, hold }, announce) {
    this.#mutate = mutate;
    this.#hold = hold;
    this.#announce = announce;
    // one listener for all items, of which there may be thousands
    byId("todos").addEventListener("change", ({ target }) => {
      if (target.matches(".check")) this.#mutate({ name: "updateTodo", args: { id: itemOf(target).dataset.id, complete: target.checked } });
    });
    byId("todos").addEventListener("click", ({ target }) => {
      if (target.matches(".text") && this.#list.isEditable) this.#rename(itemOf(target));
      if (target.matches(".remove")) this.#remove(itemOf(target));
    });
    byId("hide-completed").addEventListener("click", () => this.#hideCompleted(!hidesCompleted()));
    this.#hideCompleted(hidesCompleted());
    makeMovable(byId("todos"), () => this.#seen, (from, to) => this.#move(from, to));
  }

  /**
   * Shows the todos of this list; those whose ids are among `waiting` have mutations that the server has not confirmed. Where the
   * ids of the todos that have changed are told, only these are touched.
   */
  show(list, waiting, changed) {
    if (list.id !== this.#list.id) {
      this.#parts.clear();
      this.#items.clear();
    }
    const isKnown = changed !== undefined && list.id === this.#list.id && list.isEditable === this.#list.isEditable;
    this.#list = list;
    this.#waiting = waiting;
    byId("todos").classList.toggle("only-seen", !list.isEditable);
    this.#showThese(isKnown ? changed : new Set([...this.#items.keys(), ...list.todos.map(({ id }) => id)]));
    byId("no-todos").hidden = list.todos.length > 0;
  }

  /** No list is shown, so that nothing of what is shown next is known. */
  forget() {
    this.#list = { todos: [] };
  }

  /** Has the todo that came last be in sight. */
  revealLast() {
    this.#parts.last?.scrollIntoView({ block: "nearest" });
  }

  /** Has this todo be in sight, with the focus, where it is there. */
  reveal(id) {
    const item = this.#items.get(id);
    if (item?.classList.contains("complete")) this.#hideCompleted(false);
    item?.scrollIntoView({ block: "center" });
    item?.querySelector(".text").focus({ preventScroll: true });
  }

  /** The items that a person sees. */
  get #seen() {
    return this.#parts.items.filter((item) => !hidesCompleted() || !item.classList.contains("complete"));
  }

  #hideCompleted(isHiding) {
    sessionStorage.setItem(HIDES, isHiding);
    byId("todos").classList.toggle("hides-completed", isHiding);
    byId("hide-completed").ariaPressed = isHiding;
  }

  #showThese(ids) {
    const { todos } = this.#list;
    const places = [];
    const byID = ids.size > 20 ? new Map(todos.map((todo) => [todo.id, todo])) : undefined;
    for (const id of ids) {
      const todo = byID === undefined ? this.#find(id) : byID.get(id);
      if (todo !== undefined) places.push(placeOf(todos, todo));
      else if (this.#items.has(id)) this.#drop(id);
    }
    // the last first, so that what an item stands before is in its place
    for (const place of places.sort((one, other) => other - one)) {
      const todo = todos[place];
      const item = this.#items.get(todo.id) ?? make(todo.id);
      this.#items.set(todo.id, item);
      this.#update(item, todo);
      this.#parts.put(item, this.#items.get(todos[place + 1]?.id) ?? null);
    }
  }

  #drop(id) {
    this.#parts.remove(this.#items.get(id));
    this.#items.delete(id);
  }

  #find(id) {
    return this.#list.todos.find((todo) => todo.id === id);
  }

  #update(item, { id, text, complete }) {
    const [grip, check, shown, remove] = ["grip", "check", "text", "remove"].map((name) => item.querySelector(`:scope > .${name}`));
    const [isEditable, isWaiting] = [this.#list.isEditable, this.#waiting.has(id)];
    item.classList.toggle("complete", complete);
    item.classList.toggle("waiting", isWaiting);
    check.checked = complete;
    check.disabled = !isEditable;
    check.ariaLabel = text;
    setText(shown, text);
    shown.title = !isEditable ? "" : isWaiting ? "Rename (waits to be sent)" : "Rename";
    grip.ariaLabel = `Move ${text}, with the arrow keys`;
    remove.ariaLabel = `Delete ${text}`;
  }

  #rename(item) {
    const todo = this.#find(item.dataset.id);
    const shown = item.querySelector(".text");
    const field = element("input", { className: "rename", value: todo.text, maxLength: 2000, ariaLabel: "New text", autocomplete: "off" });
    shown.hidden = true;
    shown.after(field);
    field.select();
    const end = (isKept) => {
      field.removeEventListener("blur", leave);
      const text = field.value.trim();
      const hadFocus = document.activeElement === field;
      field.remove();
      shown.hidden = false;
      if (hadFocus) shown.focus();
      if (isKept && text !== "" && text !== todo.text) this.#mutate({ name: "updateTodo", args: { id: todo.id, text } });
    };
    const leave = () => end(true);
    field.addEventListener("blur", leave);
    field.addEventListener("keydown", ({ key, isComposing }) => {
      if (key === "Enter" && !isComposing) end(true);
      if (key === "Escape") end(false);
    });
  }

  #remove(item) {
    const seen = this.#seen;
    const place = seen.indexOf(item);
    const next = seen[place + 1] ?? seen[place - 1];
    (next?.querySelector(".remove") ?? byId("todo-text")).focus();
    const { id, text: label } = this.#find(item.dataset.id);
    this.#hold({ name: "deleteTodo", args: id, label });
  }

  #move(seenFrom, seenTo) {
    const { todos } = this.#list;
    const [from, to] = [seenFrom, seenTo].map((place) => this.#parts.items.indexOf(this.#seen[place]));
    this.#announce(`${todos[from].text}: place ${to + 1} of ${todos.length}`);
    this.#mutate(...moveCalls(todos, from, to));
  }
}

const itemOf = (target) => target.closest(".todo");

function make(id) {
  const item = element(
    "div",
    { className: "todo", role: "listitem" },
    element("button", { className: "grip", type: "button" }),
    element("input", { className: "check", type: "checkbox" }),
    element("button", { className: "text", type: "button" }),
    element("button", { className: "remove", type: "button" }),
  );
  item.dataset.id = id;
  return item;
}
