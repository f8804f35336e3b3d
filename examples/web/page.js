/** What a person sees, and what they do: each thing that they do is one call of a mutator, or more. */
import { byId, element, follow, saysYes, setText } from "./elements.js";
import { Found } from "./found.js";
import { addressOf, COMPLETED, placeOf, searchFor } from "./place.js";
import { changesText, noticeOf, otherName, showNotice, stateOf } from "./state.js";
import { Sharing } from "./sharing.js";
import { Todos } from "./todos.js";
import { Undo } from "./undo.js";

/** How many lists an extent names at most. */
const MOST_LISTS = 64;

/** The call that has just these lists synced, or all where they are too many. */
const syncing = (lists) => ({ name: "setExtent", args: { lists: lists.length <= MOST_LISTS ? lists : null } });

/** Whether a list that was made is not there, where no extent can have left it out. */
function hasLostList(confirmed, view) {
  const deleted = new Set(confirmed.filter(({ name }) => name === "deleteList").map(({ args }) => args));
  return confirmed.some(({ name, args }) => name === "createList" && !deleted.has(args.id) && !view.hasBaseList(args.id));
}

export class Page {
  #view;
  #actions;
  #outcome;
  #isOtherName = false;
  #todos;
  #sharing;
  #found;
  #undo;
  /** Which element has the focus once the next place is shown, where it is not the heading. */
  #focused;

  /** Shows `view`. `actions` are what the page can ask for. */
  constructor(view, actions) {
    this.#view = view;
    this.#actions = actions;
    this.#todos = new Todos(actions, (text) => this.#announce(text));
    this.#sharing = new Sharing(view, actions.mutate, (text) => this.#announce(text));
    this.#found = new Found(view);
    this.#undo = new Undo(view, actions, (call) => this.#showAgain(call));
    this.#onForm("list-form", "list-name", (name) => this.#addList(name));
    this.#onForm("todo-form", "todo-text", (text) => this.#addTodo(text));
    this.#onForm("key-form", "key-again", (key) => actions.setKey(key));
    byId("sign-in-form").addEventListener("submit", (event) => {
      event.preventDefault();
      actions.signIn(byId("sign-in-user").value.trim(), byId("sign-in-key").value);
    });
    byId("sign-out").addEventListener("click", () => this.#signOut());
    byId("delete-list").addEventListener("click", () => this.#deleteList());
    byId("hide-list").addEventListener("click", () => actions.mutate(syncing(this.#synced.filter((id) => id !== this.#list.id))));
    byId("show-all").addEventListener("click", () => actions.mutate({ name: "setExtent", args: { lists: null } }));
    byId("rename-list").addEventListener("click", () => this.#tellName());
    byId("list-title").addEventListener("dblclick", () => this.#tellName());
    byId("search-text").addEventListener("input", ({ target }) => this.#search(target.value.trim()));
    byId("search-form").addEventListener("submit", (event) => {
      event.preventDefault();
      byId("found-items").querySelector("a")?.focus();
    });
    addEventListener("hashchange", () => this.#goTo(placeOf(location.hash)));
    for (const name of ["online", "offline"]) {
      addEventListener(name, () => {
        if (this.#view.session !== undefined) this.#showState();
      });
    }
  }

  /** Shows that nobody is signed in. */
  askWho() {
    showNotice("");
    byId("sign-in").hidden = false;
    byId("sign-in-user").focus();
  }

  /** Shows what has changed in the view. */
  show(change) {
    if (change.hasLists) this.#showLists();
    else for (const id of change.lists) this.#showSum(id);
    this.#showList(change);
    this.#found.show(placeOf(location.hash));
    this.#undo.show();
    this.#showAccount();
    this.#showState();
  }

  /** Shows what the last round came to. */
  setOutcome(outcome, confirmed) {
    this.#outcome = outcome;
    this.#isOtherName ||= !this.#view.isNarrowed && hasLostList(confirmed, this.#view);
    this.#showState();
  }

  /** The list that is open, or undefined. */
  get #list() {
    return this.#view.list(placeOf(location.hash).listID);
  }

  /** Shows another place of the page, and has the focus there. */
  #goTo(place) {
    byId("search-text").value = place.text ?? "";
    this.#showPlace();
    const shown = this.#list === undefined ? (byId("found").hidden ? "search-text" : "found-title") : "list-title";
    byId(this.#focused ?? shown).focus({ preventScroll: true });
    this.#focused = undefined;
    if (place.todoID === undefined) scrollTo(0, 0);
    else this.#todos.reveal(place.todoID);
  }

  /** Has the focus on what was deleted and is back. */
  #showAgain({ name, args: id }) {
    if (name === "deleteTodo") this.#todos.reveal(id);
    else if (this.#list?.id === id) byId("list-title").focus();
    else location.hash = addressOf(id);
  }

  #showPlace() {
    this.#showCurrent();
    this.#showList();
    this.#found.show(placeOf(location.hash));
  }

  /** Shows what is found as somebody types. All of one search is one place, to which the browser goes back. */
  #search(text) {
    const isSearching = placeOf(location.hash).text !== undefined;
    history[isSearching ? "replaceState" : "pushState"](null, "", text === "" ? "#" : searchFor(text));
    this.#showPlace();
  }

  #tellName() {
    saysYes("A list keeps the name that it was made with; the server knows no way to change it. To have another name, make a new list.");
  }

  /** The ids of the lists that are synced: those that the user's extent names, or all. */
  get #synced() {
    return this.#view.extent?.lists ?? this.#view.lists.map(({ id }) => id);
  }

  #onForm(form, field, act) {
    byId(form).addEventListener("submit", (event) => {
      event.preventDefault();
      const text = byId(field).value.trim();
      if (text !== "") act(text);
      byId(field).value = "";
    });
  }

  #addList(name) {
    const id = crypto.randomUUID();
    const calls = [{ name: "createList", args: { id, name, ownerID: this.#view.session.user } }];
    if (this.#view.extent !== undefined) calls.push(syncing([...this.#synced, id]));
    this.#actions.mutate(...calls);
    this.#focused = "todo-text";
    location.hash = addressOf(id);
  }

  #addTodo(text) {
    const args = { id: crypto.randomUUID(), listID: this.#list.id, text, complete: false };
    this.#actions.mutate({ name: "createTodo", args });
    this.#todos.revealLast();
  }

  async #deleteList() {
    const { id, name, shares } = this.#list;
    const others = shares.length > 0 ? ", for all who see it" : "";
    if (!(await saysYes(`Delete “${name}” and its todos${others}?`, "Delete"))) return;
    await this.#actions.hold({ name: "deleteList", args: id, label: name });
    byId("undo").focus();
  }

  async #signOut() {
    const waiting = this.#view.waiting + this.#view.held.length;
    const loss = waiting > 0 ? ` What has not been sent yet, ${changesText(waiting)}, would be lost.` : "";
    if (await saysYes(`Sign out, and forget the lists in this browser?${loss}`, "Sign out")) this.#actions.signOut();
  }

  #announce(text) {
    setText(byId("news"), text);
  }

  #showState() {
    const { session, waiting, isForOther } = this.#view;
    const [state, text] = stateOf(this.#outcome, navigator.onLine, waiting);
    const status = byId("status");
    if (status.dataset.state !== state && state !== "busy") this.#announce(text);
    Object.assign(status.dataset, { state, waiting });
    setText(byId("status-text"), text);
    const notice = this.#isOtherName || isForOther ? otherName(session.user) : noticeOf(this.#outcome, session);
    showNotice(notice);
    byId("key-form").hidden = this.#outcome?.kind !== "key" && this.#outcome?.error !== "GroupOfOther";
  }

  #showAccount() {
    const { user, groupID, cookie } = this.#view.session;
    byId("app").hidden = false;
    byId("account").hidden = false;
    setText(byId("account"), user);
    byId("key-user").value = user;
    setText(byId("account-name"), user);
    setText(byId("account-group"), groupID);
    setText(byId("account-cookie"), cookie === null ? "none yet" : `place ${cookie.cvrID}, order ${cookie.order}`);
  }

  #showLists() {
    const make = (id) => element("li", {}, element("a", { href: addressOf(id) }, element("span", { className: "name" }), element("span", { className: "count" })));
    follow(byId("lists"), this.#view.lists, make, (item, { id, name }) => {
      setText(item.querySelector(".name"), name);
      this.#showSum(id, item);
    });
    const { lists, extent } = this.#view;
    byId("no-lists").hidden = lists.length > 0 || extent !== undefined;
    byId("some-lists").hidden = extent === undefined;
    this.#showCurrent();
  }

  /** Shows what a list comes to, beside its name. */
  #showSum(id, item = [...byId("lists").children].find(({ dataset }) => dataset.id === id)) {
    if (item === undefined) return;
    const { open, ownerID, isShared } = this.#view.sumOf(id);
    const [name, count] = item.firstElementChild.children;
    setText(count, open > 0 ? String(open) : "");
    count.ariaLabel = `${open} to do`;
    const isOwn = ownerID === this.#view.session.user;
    name.dataset.sharing = isOwn ? (isShared ? "shared" : "") : `by ${ownerID}`;
  }

  #showCurrent() {
    byId("completed").ariaCurrent = location.hash === COMPLETED ? "page" : null;
    const id = this.#list?.id;
    for (const item of byId("lists").children) item.firstElementChild.ariaCurrent = item.dataset.id === id ? "page" : null;
  }

  /** Shows the list that is open: what has changed of it, or all where that is not said. */
  #showList(change = { isWhole: true, hasLists: true }) {
    const list = this.#list;
    byId("list").hidden = list === undefined;
    const { text, isCompleted = false } = placeOf(location.hash);
    const isFinding = text !== undefined || isCompleted;
    byId("no-list").hidden = list !== undefined || isFinding || this.#view.lists.length === 0;
    byId("app").classList.toggle("with-list", list !== undefined || isCompleted);
    byId("app").classList.toggle("with-search", text !== undefined);
    const title = list?.name ?? (isCompleted ? "Completed" : text === undefined ? undefined : "Search");
    document.title = title === undefined ? "Lists" : `${title} · Lists`;
    if (list === undefined) {
      this.#todos.forget();
      return;
    }
    const { name, ownerID, todos, done, isEditable } = list;
    setText(byId("list-title"), name);
    setText(byId("list-done"), todos.length > 0 ? `${done} of ${todos.length} done` : "");
    Object.assign(byId("list-progress"), { max: Math.max(1, todos.length), value: done });
    this.#todos.show(list, this.#view.waitingIDs, change.isWhole ? undefined : change.todos);
    if (!change.hasLists) return;
    byId("todo-form").hidden = !isEditable;
    byId("looks-alone").hidden = isEditable;
    setText(byId("looks-alone"), `You can look at this list. ${ownerID} can let you edit it.`);
    this.#sharing.show(list);
    byId("hide-list").hidden = this.#synced.length > MOST_LISTS + 1;
  }
}
