// A plain server over maps, as one writes it in Node: answers the lines of its input with the same bytes as `rv feed memory`, for what
// bench/node.py sends: createList, createTodo, updateTodo, calls that are none, and pulls, of users without shares and extents.
// Every mutation is run once in id order, and each pull is told by row versions and view records, of which it keeps 16 a group.
// Keys are ASCII, so they are sorted as Node sorts them. Nothing is kept on a disk.
"use strict";
const readline = require("readline");

const KEPT_LOOKS = 16;
const GREATEST = Number.MAX_SAFE_INTEGER;

let place = 0;
const rows = new Map(); // by key: { kind, value, version }
const lists = new Map(); // by list: the keys of the list and its todos
const owned = new Map(); // by user: the ids of the user's lists
const clients = new Map(); // by client: { group, last }
const groups = new Map(); // by group: { user, order, clients, looks }
const records = new Map(); // by place: the record of a look

function put(key, list, value) {
  if (!rows.has(key)) {
    lists.get(list).push(key);
  }
  rows.set(key, { value, version: place });
}

function isText(value, least, most) {
  if (typeof value !== "string") {
    return false;
  }
  const length = Buffer.byteLength(value);
  return least <= length && length <= most;
}

function createList(user, args) {
  const { id, name, ownerID } = args;
  if (!isText(id, 1, 128) || !isText(name, 0, 16384) || ownerID !== user || rows.has(`list/${id}`)) {
    return;
  }
  lists.set(id, []);
  if (!owned.has(user)) {
    owned.set(user, []);
  }
  owned.get(user).push(id);
  put(`list/${id}`, id, { id, name, ownerID });
}

function createTodo(user, args) {
  const { id, listID, text, complete } = args;
  const list = rows.get(`list/${listID}`);
  const fits = isText(id, 1, 128) && isText(text, 0, 16384) && typeof complete === "boolean";
  if (!fits || list === undefined || list.value.ownerID !== user || rows.has(`todo/${id}`)) {
    return;
  }
  const sort = Math.min((list.greatest ?? 0) + 1, GREATEST);
  list.greatest = sort;
  put(`todo/${id}`, listID, { complete, id, listID, sort, text });
}

function updateTodo(user, args) {
  const found = rows.get(`todo/${args.id}`);
  if (found === undefined || rows.get(`list/${found.value.listID}`).value.ownerID !== user) {
    return;
  }
  const { complete = found.value.complete, sort = found.value.sort, text = found.value.text } = args;
  if (typeof complete !== "boolean" || !Number.isSafeInteger(sort) || !isText(text, 0, 16384)) {
    return;
  }
  const list = rows.get(`list/${found.value.listID}`);
  list.greatest = Math.max(list.greatest, sort);
  const { id, listID } = found.value;
  put(`todo/${id}`, listID, { complete, id, listID, sort, text });
}

const mutators = { createList, createTodo, updateTodo };

function groupOf(user, name) {
  let group = groups.get(name);
  if (group === undefined) {
    group = { user, order: 0, clients: new Map(), looks: [] };
    groups.set(name, group);
  }
  return group;
}

function mutate(user, groupName, mutation) {
  const group = groups.get(groupName);
  if (group !== undefined && group.user !== user) {
    return [403, { error: "GroupOfOther" }];
  }
  const client = clients.get(mutation.clientID) ?? { group: groupName, last: 0 };
  if (client.group !== groupName) {
    return [403, { error: "ClientOfOther" }];
  }
  if (mutation.id <= client.last) {
    return null;
  }
  if (mutation.id > client.last + 1) {
    return [409, { error: "Future", expected: client.last + 1, got: mutation.id }];
  }
  place += 1;
  client.last = mutation.id;
  clients.set(mutation.clientID, client);
  groupOf(user, groupName).clients.set(mutation.clientID, mutation.id);
  const mutator = Object.hasOwn(mutators, mutation.name) ? mutators[mutation.name] : undefined;
  if (mutator !== undefined && mutation.args !== null && typeof mutation.args === "object") {
    mutator(user, mutation.args);
  }
  return null;
}

function push(user, body) {
  for (const mutation of body.mutations) {
    const refusal = mutate(user, body.clientGroupID, mutation);
    if (refusal !== null) {
      return refusal;
    }
  }
  return [200, {}];
}

function baseOf(user, cookie) {
  if (cookie === null || typeof cookie !== "object") {
    return null;
  }
  const record = records.get(Number(cookie.cvrID));
  return record !== undefined && record.user === user && record.order === cookie.order ? record : null;
}

function seenBy(user) {
  const keys = [];
  for (const list of owned.get(user) ?? []) {
    keys.push(...lists.get(list));
  }
  return keys.sort();
}

function pull(user, body) {
  const { clientGroupID: name, cookie } = body;
  const group = groupOf(user, name);
  if (group.user !== user) {
    return [403, { error: "GroupOfOther" }];
  }
  const base = baseOf(user, cookie);
  const keys = seenBy(user);
  const patch = base === null ? [{ op: "clear" }] : [];
  const seen = new Map(keys.map((key) => [key, rows.get(key).version]));
  if (base !== null) {
    for (const key of base.seen.keys()) {
      if (!seen.has(key)) {
        patch.push({ key, op: "del" });
      }
    }
  }
  for (const [key, version] of seen) {
    if (base === null || base.seen.get(key) !== version) {
      patch.push({ key, op: "put", value: rows.get(key).value });
    }
  }
  const ids = {};
  for (const client of [...group.clients.keys()].sort()) {
    const last = group.clients.get(client);
    if (base === null || base.clients.get(client) !== last) {
      ids[client] = last;
    }
  }
  if (patch.length === 0 && Object.keys(ids).length === 0) {
    return [200, { cookie, lastMutationIDChanges: {}, patch: [] }];
  }
  const asked = cookie !== null && typeof cookie === "object" ? cookie.order : (cookie ?? 0);
  place += 1;
  group.order = Math.max(asked, group.order) + 1;
  records.set(place, { user, order: group.order, seen, clients: new Map(group.clients) });
  group.looks.push(place);
  if (group.looks.length > KEPT_LOOKS) {
    records.delete(group.looks.shift());
  }
  const answered = { cvrID: String(place), order: group.order };
  return [200, { cookie: answered, lastMutationIDChanges: ids, patch }];
}

readline.createInterface({ input: process.stdin }).on("line", (line) => {
  const { user, push: pushed, pull: pulled } = JSON.parse(line);
  const [status, body] = pushed === undefined ? pull(user, pulled) : push(user, pushed);
  process.stdout.write(`${status} ${JSON.stringify(body)}\n`);
});
