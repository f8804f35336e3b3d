/**
 * What this browser keeps, in IndexedDB: all that a window needs to go on after it was closed, offline too.
 *
 * - `session`: one record: who is signed in with which key, the client group, and the cookie of the last pull.
 * - `rows`: the base view, just as the last pull gave it, by the protocol's keys.
 * - `seats`: for each seat, which is what one window has while it lives, its client and that client's last mutation id.
 * - `pending`: the mutations that no pull has confirmed yet, in the order in which they were made, whichever window made them.
 *   One that is held back has a time, `until`, in place of a client and an id.
 * - `changes`: what the last changes were, by their numbers, so that a window reads no more than what it has not seen.
 *
 * Each change is one transaction over all of these, so that windows of one browser never see half of one, and never number two
 * mutations alike.
 */
const NAME = "rv-lists";
/** Version 1 had no `changes`. */
const VERSION = 2;
const STORES = ["session", "rows", "seats", "pending", "changes"];
const SESSION = "session";

/** For how many milliseconds a deletion is held back, so that it can be undone. */
export const HOLD = 10_000;

/** How many changes are kept. A window that has missed more reads all. */
const KEPT_CHANGES = 200;
/** How many rows a window reads one by one. Where more have changed, to read all is no slower. */
const FEW_ROWS = 1_000;

/** About how many characters of mutations one push has. The server takes 4,194,304 bytes, and a character has at most three. */
const PUSH_LENGTH = 1_000_000;

function answered(request) {
  return new Promise((resolve, reject) => {
    request.onsuccess = () => resolve(request.result);
    request.onerror = () => reject(request.error);
  });
}

function makeStores(database, oldVersion) {
  if (oldVersion < 1) {
    database.createObjectStore("session");
    database.createObjectStore("rows");
    database.createObjectStore("seats");
    database.createObjectStore("pending", { keyPath: "sequence", autoIncrement: true });
  }
  database.createObjectStore("changes", { keyPath: "revision", autoIncrement: true });
}

/** Notes a change: of which rows, and which mutations are pending no more; or that all is to be read anew. */
async function note(changes, { rows = [], ended = [], isWhole = false }) {
  const revision = await answered(changes.add(isWhole ? { isWhole } : { rows, ended }));
  changes.delete(IDBKeyRange.upperBound(revision - KEPT_CHANGES));
}

/** Numbers these calls as the next mutations of the seat's client, and adds them to what is pending. */
async function number({ seats, pending }, seat, calls) {
  const client = (await answered(seats.get(seat))) ?? { clientID: crypto.randomUUID(), lastID: 0 };
  for (const { name, args } of calls) {
    client.lastID += 1;
    pending.add({ seat, clientID: client.clientID, id: client.lastID, name, args });
  }
  seats.put(client, seat);
}

const isHeld = ({ until }) => until !== undefined;

const sameCookie = (one, other) => JSON.stringify(one) === JSON.stringify(other);

export class Store {
  #database;
  #channel = new BroadcastChannel(NAME);
  #changed = () => {};

  /**
   * Opens what this browser keeps, and makes it where there is nothing yet. `blocked` is called where a window with an older
   * version of the page has to be closed first.
   */
  static async open(blocked) {
    const request = indexedDB.open(NAME, VERSION);
    request.onupgradeneeded = ({ oldVersion }) => makeStores(request.result, oldVersion);
    request.onblocked = blocked;
    return new Store(await answered(request));
  }

  constructor(database) {
    this.#database = database;
    // a newer version of the page, in another window, waits for this one
    database.onversionchange = () => {
      database.close();
      location.reload();
    };
  }

  /** Has `changed` called after each change from now on, whichever window made it. A change of this window waits for its end. */
  onChange(changed) {
    this.#changed = changed;
    this.#channel.onmessage = () => changed();
  }

  /** Runs `work` in one transaction. It is on the disk when this resolves; where `work` throws, nothing of it is kept. */
  async #transact(mode, work) {
    const transaction = this.#database.transaction(STORES, mode, { durability: "strict" });
    const done = new Promise((resolve, reject) => {
      transaction.oncomplete = resolve;
      transaction.onabort = () => reject(transaction.error);
    });
    done.catch(() => {});
    try {
      const result = await work(Object.fromEntries(STORES.map((name) => [name, transaction.objectStore(name)])));
      await done;
      return result;
    } catch (error) {
      if (transaction.error === null) transaction.abort();
      throw error;
    }
  }

  /** Like `#transact`, and then tells all windows, this one too; `kept` is called before. */
  async #change(work, kept = () => {}) {
    const result = await this.#transact("readwrite", work);
    kept();
    this.#channel.postMessage("changed");
    await this.#changed();
    return result;
  }

  /** Who is signed in, or undefined. */
  session() {
    return this.#transact("readonly", ({ session }) => answered(session.get(SESSION)));
  }

  seats() {
    return this.#transact("readonly", ({ seats }) => answered(seats.getAllKeys()));
  }

  /**
   * What has changed since this revision, at which this was the last mutation: the session, the rows that are others (undefined
   * where they are gone), the mutations that were made, and the sequences of those that ended. Or all, where it is not known
   * what has changed. Undefined where nothing has.
   */
  since(revision, sequence) {
    return this.#transact("readonly", async (stores) => {
      const changes = await answered(stores.changes.getAll(IDBKeyRange.lowerBound(revision, true)));
      if (changes.length === 0 && revision >= 0) return undefined;
      const keys = [...new Set(changes.flatMap(({ rows = [] }) => rows))];
      const isKnown = changes[0]?.revision === revision + 1 && changes.every(({ isWhole }) => !isWhole) && keys.length <= FEW_ROWS;
      const read = isKnown ? this.#some(stores, keys, sequence) : this.#all(stores);
      const ended = changes.flatMap((change) => change.ended ?? []);
      return { revision: changes.at(-1)?.revision ?? 0, isWhole: !isKnown, ended, ...(await read) };
    });
  }

  async #all({ session, rows, pending }) {
    const [kept, keys, values, mutations] = await Promise.all(
      [session.get(SESSION), rows.getAllKeys(), rows.getAll(), pending.getAll()].map(answered),
    );
    return { session: kept, rows: keys.map((key, at) => [key, values[at]]), pending: mutations };
  }

  async #some({ session, rows, pending }, keys, sequence) {
    const [kept, mutations, ...values] = await Promise.all(
      [session.get(SESSION), pending.getAll(IDBKeyRange.lowerBound(sequence, true)), ...keys.map((key) => rows.get(key))].map(answered),
    );
    return { session: kept, rows: keys.map((key, at) => [key, values[at]]), pending: mutations };
  }

  /** Signs a user in, as a new client group that knows nothing. */
  signIn(user, key) {
    return this.#change(async (stores) => {
      for (const name of STORES) stores[name].clear();
      await note(stores.changes, { isWhole: true });
      const [profileID, groupID] = [crypto.randomUUID(), crypto.randomUUID()];
      stores.session.put({ user, key, profileID, groupID, cookie: null }, SESSION);
    });
  }

  /** Forgets the user and all that was kept for them. */
  signOut() {
    return this.#change((stores) => {
      for (const name of STORES) stores[name].clear();
      return note(stores.changes, { isWhole: true });
    });
  }

  setKey(key) {
    return this.#change(async ({ session, changes }) => {
      const kept = await answered(session.get(SESSION));
      if (kept) session.put({ ...kept, key }, SESSION);
      await note(changes, {});
    });
  }

  /**
   * Numbers these calls as the next mutations of the seat's client, and keeps them as pending. A call is `{ name, args }`. `kept`
   * is called once they are on the disk, before anybody is told.
   */
  mutate(seat, calls, kept) {
    return this.#change(async (stores) => {
      await number(stores, seat, calls);
      await note(stores.changes, {});
    }, kept);
  }

  /** Keeps a call, with its `until` and what it is called by, that is not to be sent before it is released. */
  hold(call, kept) {
    return this.#change(({ pending, changes }) => {
      pending.add(call);
      return note(changes, {});
    }, kept);
  }

  /** Takes back a call that is held. Whether it still was. */
  undo(sequence) {
    return this.#change(async ({ pending, changes }) => {
      const held = await answered(pending.get(sequence));
      if (held === undefined || !isHeld(held)) return false;
      pending.delete(sequence);
      await note(changes, { ended: [sequence] });
      return true;
    });
  }

  /** Numbers the calls whose time is over as the next mutations of the seat's client; which a clock that was put back can't keep from it. */
  async release(seat, now) {
    const due = async ({ pending }) => (await answered(pending.getAll())).filter(({ until }) => until <= now || until > now + HOLD);
    if ((await this.#transact("readonly", due)).length === 0) return;
    await this.#change(async (stores) => {
      const calls = await due(stores);
      const ended = calls.map(({ sequence }) => sequence);
      for (const sequence of ended) stores.pending.delete(sequence);
      await number(stores, seat, calls);
      await note(stores.changes, { ended });
    });
  }

  /** The pending mutations that come after this place in their order: as many as one push has. */
  nextPending(sequence) {
    return this.#transact("readonly", async ({ pending }) => {
      const all = (await answered(pending.getAll(IDBKeyRange.lowerBound(sequence, true)))).filter((mutation) => !isHeld(mutation));
      let length = 0;
      const end = all.findIndex((mutation, at) => (length += JSON.stringify(mutation).length) > PUSH_LENGTH && at > 0);
      return end < 0 ? all : all.slice(0, end);
    });
  }

  /**
   * Takes in the answer to a pull that was asked with this session: the patch, the cookie, and the end of what is confirmed.
   * Where group or cookie are others by now, the patch is for a base that is gone, and nothing is taken in.
   * Gives the mutations that are confirmed.
   */
  applyPull(asked, { cookie, lastMutationIDChanges, patch }) {
    if (sameCookie(cookie, asked.cookie)) return [];
    return this.#change(async ({ session, rows, pending, changes }) => {
      const kept = await answered(session.get(SESSION));
      if (kept?.groupID !== asked.groupID || !sameCookie(kept.cookie, asked.cookie)) return [];
      for (const { op, key, value } of patch) {
        if (op === "clear") rows.clear();
        else if (op === "put") rows.put(value, key);
        else rows.delete(key);
      }
      session.put({ ...kept, cookie }, SESSION);
      const mutations = await answered(pending.getAll());
      const confirmed = mutations.filter(({ clientID, id }) => id <= (lastMutationIDChanges[clientID] ?? 0));
      const ended = confirmed.map(({ sequence }) => sequence);
      for (const sequence of ended) pending.delete(sequence);
      const isWhole = patch.length > FEW_ROWS || patch.some(({ op }) => op === "clear");
      await note(changes, { rows: patch.map(({ key }) => key), ended, isWhole });
      return confirmed;
    });
  }

  /**
   * Begins a new client group, since the server has ended this one. What is pending is not lost: the same calls are numbered
   * from 1 by new clients. The rows stay until the first pull of the new group replaces them all.
   */
  beginAnew(groupID) {
    return this.#change(async ({ session, seats, pending, changes }) => {
      const kept = await answered(session.get(SESSION));
      if (kept?.groupID !== groupID) return;
      session.put({ ...kept, groupID: crypto.randomUUID(), cookie: null }, SESSION);
      seats.clear();
      const clients = new Map();
      for (const mutation of await answered(pending.getAll())) {
        if (isHeld(mutation)) continue;
        const client = clients.get(mutation.seat) ?? { clientID: crypto.randomUUID(), lastID: 0 };
        client.lastID += 1;
        clients.set(mutation.seat, client);
        pending.put({ ...mutation, clientID: client.clientID, id: client.lastID });
      }
      for (const [seat, client] of clients) seats.put(client, seat);
      await note(changes, { isWhole: true });
    });
  }
}
