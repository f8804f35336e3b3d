/**
 * What is shown: the base view with the pending mutations replayed on top of it. A window has it in memory, and takes in what has
 * changed in the store: mutations that were made are replayed on what is there, and where the base view has changed, or a
 * mutation has ended, all that are pending are lifted from the base view and replayed anew, which rebases them. Either way only
 * the rows that are written are touched.
 *
 * What a person does in this window is an attempt first: it is shown at once, on top of all that is pending, and becomes one of
 * the pending mutations, or nothing, once the store has kept it or failed to.
 */
import { mayEdit, mutators, sees } from "./mutators.js";
import { Rows } from "./rows.js";

const NOTHING = { isWhole: false, rows: [], ended: [], pending: [] };

const byName = new Intl.Collator(undefined, { numeric: true, sensitivity: "base" });

/** Which row a call is about, where it is about one. */
const aboutOf = ({ args }) => args.id ?? args;

export class View {
  /** Who is signed in, or undefined. */
  session;
  /** Whether the server gave what is somebody else's: lists that the key's user does not see, or the extent of another. */
  isForOther = false;
  #revision = -1;
  #sequence = 0;
  #rows = new Rows();
  #pending = new Map();
  #attempts = [];
  #lists = [];

  /**
   * Takes in what has changed in the store since the last call. What is to be shown anew: `isWhole` where it may be all;
   * `hasLists` where lists, shares or extents are others; and the ids of the `todos` that are, with the ids of their `lists`.
   * Undefined where nothing has changed.
   */
  async catchUp(store) {
    // of an attempt that is over by now the store knows all in what is read next
    const over = this.#attempts.filter(({ isOver }) => isOver);
    const news = await store.since(this.#revision, this.#sequence);
    if (news === undefined && over.length === 0) return undefined;
    const marked = this.waitingIDs;
    const { isWhole, rows, ended, pending } = news ?? NOTHING;
    this.session = news?.session ?? (news === undefined ? this.session : undefined);
    this.#revision = news?.revision ?? this.#revision;
    if (isWhole) {
      this.#rows = new Rows();
      this.#pending.clear();
    }
    const isRebased = isWhole || rows.length > 0 || this.#attempts.length > 0 || ended.some((sequence) => this.#pending.has(sequence));
    this.#attempts = this.#attempts.filter((attempt) => !over.includes(attempt));
    if (isRebased) this.#rebase(rows, ended, pending);
    else this.#replay(pending);
    return this.#changes(isWhole, marked);
  }

  /** Has these calls shown at once. Gives the attempt, whose `isOver` is to be set once they are kept or can't be; and what to show anew. */
  attempt(calls) {
    const [attempt, marked] = [{ calls, isOver: false }, this.waitingIDs];
    this.#attempts.push(attempt);
    this.#run(calls);
    return [attempt, this.#changes(false, marked)];
  }

  /** The user's extent, or undefined. */
  get extent() {
    return this.#rows.get(`extent/${this.session.user}`);
  }

  /** Whether the user has an extent, with what is pending or without it. */
  get isNarrowed() {
    const key = `extent/${this.session.user}`;
    return this.#rows.has(key) || this.#rows.base(key) !== undefined;
  }

  /** How many mutations wait to be confirmed. */
  get waiting() {
    return this.#waiting.length;
  }

  /** The ids of the rows that these are about. */
  get waitingIDs() {
    return new Set(this.#waiting.map(aboutOf));
  }

  get #waiting() {
    return [...this.#pending.values(), ...this.#attempts.flatMap(({ calls }) => calls)].filter(({ until }) => until === undefined);
  }

  /** What is held back, and can be undone. */
  get held() {
    return [...this.#pending.values()].filter(({ until }) => until !== undefined);
  }

  /** The lists that the user sees, by their names. */
  get lists() {
    return this.#lists;
  }

  /** A list that the user sees; with its shares, its todos in their order, how many of them are done, and whether the user may edit them. */
  list(id) {
    const list = this.#lists.find((one) => one.id === id);
    if (list === undefined) return undefined;
    const shares = this.#rows.sharesOf(id).sort((one, other) => byName.compare(one.userID, other.userID));
    const [todos, done] = [this.#rows.todosOf(id), this.#rows.doneOf(id)];
    return { ...list, shares, todos, done, isEditable: mayEdit(this.#rows, this.session.user, id) };
  }

  /** The todos of a list, in their order. */
  todosOf(id) {
    return this.#rows.todosOf(id);
  }

  /** How many todos of a list are not done, whose it is, and whether it is shared. */
  sumOf(id) {
    const open = this.#rows.todosOf(id).length - this.#rows.doneOf(id);
    return { open, ownerID: this.#rows.get(`list/${id}`).ownerID, isShared: this.#rows.sharesOf(id).length > 0 };
  }

  /** Whether the base view has the list. */
  hasBaseList(id) {
    return this.#rows.base(`list/${id}`) !== undefined;
  }

  #rebase(rows, ended, pending) {
    this.#rows.lift();
    for (const [key, row] of rows) this.#rows.setBase(key, row);
    this.isForOther ||= this.#isForOther();
    for (const sequence of ended) this.#pending.delete(sequence);
    const before = [...this.#pending.values()];
    this.#pending.clear();
    this.#replay([...before, ...pending]);
    for (const { calls } of this.#attempts) this.#run(calls);
  }

  #replay(pending) {
    this.#run(pending);
    for (const mutation of pending) {
      this.#pending.set(mutation.sequence, mutation);
      this.#sequence = Math.max(this.#sequence, mutation.sequence);
    }
  }

  #run(calls) {
    for (const { name, args } of calls) mutators[name]?.(this.#rows, this.session.user, args);
  }

  #isForOther() {
    if (this.session === undefined) return false;
    const { user } = this.session;
    return this.#rows.extents().some((extent) => extent.user !== user) || this.#rows.lists().some(({ id }) => !sees(this.#rows, user, id));
  }

  /** Which rows are others by now; and which todos are, or are marked as waiting now and were not, or the other way round. */
  #changes(isWhole, marked) {
    const changes = this.#rows.changes();
    const hasLists = isWhole || changes.some(([key]) => !key.startsWith("todo/"));
    if (hasLists && this.session !== undefined) this.#lists = this.#seenLists();
    const waiting = this.waitingIDs;
    const todos = new Set([...waiting, ...marked].filter((id) => waiting.has(id) !== marked.has(id)));
    const lists = new Set();
    for (const [key, before] of changes) {
      if (!key.startsWith("todo/")) continue;
      for (const row of [before, this.#rows.get(key)]) {
        if (row === undefined) continue;
        todos.add(row.id);
        lists.add(row.listID);
      }
    }
    return { isWhole, hasLists, todos, lists };
  }

  #seenLists() {
    const lists = this.#rows.lists().filter(({ id }) => sees(this.#rows, this.session.user, id));
    return lists.sort((one, other) => byName.compare(one.name, other.name) || (one.id < other.id ? -1 : 1));
  }
}

/**
 * The calls that move the todo at place `from` to place `to`. A sort is a whole number and new todos follow each other closely,
 * so there is no room between two: the sorts that stand from one place to the other are dealt out anew in the new order. Where
 * two are the same, which windows that move at the same time can come to, all are numbered from 1.
 */
export function moveCalls(todos, from, to) {
  const moved = todos.toSpliced(from, 1).toSpliced(to, 0, todos[from]);
  const rise = todos.every(({ sort }, place) => place === 0 || sort > todos[place - 1].sort);
  const sorts = todos.map(({ sort }, place) => (rise ? sort : place + 1));
  return moved
    .map(({ id, sort }, place) => ({ id, old: sort, sort: sorts[place] }))
    .filter(({ old, sort }) => old !== sort)
    .map(({ id, sort }) => ({ name: "updateTodo", args: { id, sort } }));
}
