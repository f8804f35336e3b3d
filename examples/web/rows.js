/**
 * Rows by the protocol's keys, in memory: those of the base view, and over them what mutations have written. Each list has its
 * shares and its todos at hand, the todos in the order in which they are shown, so that nobody goes through all rows to find them.
 */
const NONE = { shares: new Map(), todos: [], done: 0 };

const kindOf = (key) => key.slice(0, key.indexOf("/"));

const order = (one, other) => one.sort - other.sort || (one.id < other.id ? -1 : Number(one.id > other.id));

/** The place in these todos, which are in order, that this one has or would have. */
export function placeOf(todos, todo) {
  let [low, high] = [0, todos.length];
  while (low < high) {
    const middle = (low + high) >> 1;
    if (order(todos[middle], todo) < 0) low = middle + 1;
    else high = middle;
  }
  return low;
}

export class Rows {
  #rows = new Map();
  /** Of each key that a mutation has written, the row of the base view. */
  #covered = new Map();
  /** Of each key that was written since the last call of `changes`, the row before. */
  #before = new Map();
  /** Of each list that has a share or a todo, these; and how many of the todos are complete. */
  #parts = new Map();
  #lists = new Map();
  #extents = new Map();

  get(key) {
    return this.#rows.get(key);
  }

  has(key) {
    return this.#rows.has(key);
  }

  /** The row of the base view, whatever mutations have written over it. */
  base(key) {
    return this.#covered.has(key) ? this.#covered.get(key) : this.#rows.get(key);
  }

  /** What a mutation writes. */
  set(key, row) {
    this.#cover(key);
    this.#write(key, row);
  }

  delete(key) {
    this.#cover(key);
    this.#write(key, undefined);
  }

  /** Takes back all that mutations have written, so that the base view is left. */
  lift() {
    for (const [key, row] of this.#covered) this.#write(key, row);
    this.#covered.clear();
  }

  /** Changes a row of the base view, over which no mutation has written. */
  setBase(key, row) {
    this.#write(key, row);
  }

  keys() {
    return [...this.#rows.keys()];
  }

  lists() {
    return [...this.#lists.values()];
  }

  extents() {
    return [...this.#extents.values()];
  }

  sharesOf(listID) {
    return [...this.#partsOf(listID).shares.values()];
  }

  /** The list's todos in their order, for reading alone. */
  todosOf(listID) {
    return this.#partsOf(listID).todos;
  }

  /** How many of the list's todos are complete. */
  doneOf(listID) {
    return this.#partsOf(listID).done;
  }

  /** The keys whose rows are others than at the last call, each with the row that it had. */
  changes() {
    const changes = [...this.#before].filter(([key, row]) => JSON.stringify(row) !== JSON.stringify(this.#rows.get(key)));
    this.#before.clear();
    return changes;
  }

  #partsOf(listID) {
    return this.#parts.get(listID) ?? NONE;
  }

  #cover(key) {
    if (!this.#covered.has(key)) this.#covered.set(key, this.#rows.get(key));
  }

  #write(key, row) {
    const old = this.#rows.get(key);
    if (!this.#before.has(key)) this.#before.set(key, old);
    const kind = kindOf(key);
    if (old !== undefined) this.#unlist(kind, key, old);
    if (row === undefined) {
      this.#rows.delete(key);
    } else {
      this.#rows.set(key, row);
      this.#list(kind, key, row);
    }
  }

  #list(kind, key, row) {
    if (kind === "list") this.#lists.set(key, row);
    if (kind === "extent") this.#extents.set(key, row);
    if (kind !== "share" && kind !== "todo") return;
    if (!this.#parts.has(row.listID)) this.#parts.set(row.listID, { shares: new Map(), todos: [], done: 0 });
    const parts = this.#parts.get(row.listID);
    if (kind === "share") {
      parts.shares.set(key, row);
    } else {
      parts.todos.splice(placeOf(parts.todos, row), 0, row);
      parts.done += Number(row.complete);
    }
  }

  #unlist(kind, key, row) {
    if (kind === "list") this.#lists.delete(key);
    if (kind === "extent") this.#extents.delete(key);
    if (kind !== "share" && kind !== "todo") return;
    const parts = this.#parts.get(row.listID);
    if (kind === "share") {
      parts.shares.delete(key);
    } else {
      parts.todos.splice(placeOf(parts.todos, row), 1);
      parts.done -= Number(row.complete);
    }
    if (parts.shares.size === 0 && parts.todos.length === 0) this.#parts.delete(row.listID);
  }
}
