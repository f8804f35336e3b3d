/** Puts the parts together: what is kept, what is shown, what is sent, and what comes. */
import { Page } from "./page.js";
import { Pokes } from "./pokes.js";
import { takeSeat } from "./seat.js";
import { tellOlder } from "./state.js";
import { HOLD, Store } from "./store.js";
import { Sync } from "./sync.js";
import { View } from "./view.js";

const store = await Store.open(tellOlder);
const seat = await takeSeat(await store.seats());
const view = new View();
const sync = new Sync(store, seat, told);
const pokes = new Pokes({
  key: () => view.session.key,
  poked: () => sync.wake(),
  linked: (isLinked) => {
    sync.isPoked = isLinked;
    sync.wake();
  },
});
const page = new Page(view, {
  mutate: (...calls) => attempt(calls, (kept) => store.mutate(seat, calls, kept)).then(() => sync.nudge()),
  hold: (call) => {
    const held = { ...call, until: Date.now() + HOLD };
    return attempt([held], (kept) => store.hold(held, kept));
  },
  undo: (sequence) => store.undo(sequence),
  deleteNow: () => release(Infinity),
  signIn: (user, key) => store.signIn(user, key),
  signOut: () => store.signOut(),
  setKey: (key) => store.setKey(key).then(() => sync.wake()),
});

let profileID;
let holding;
let [running, next] = [Promise.resolve(), undefined];

/** Shows what is kept by now. Where another user is signed in than was, by whichever window, all begins again. */
async function show() {
  const change = await view.catchUp(store);
  if (change === undefined) return;
  if (view.session?.profileID !== profileID) location.reload();
  else if (view.session !== undefined) page.show(change);
  clearTimeout(holding);
  if (view.held.length > 0) holding = setTimeout(() => release(Date.now()), Math.max(0, view.held[0].until - Date.now()) + 1);
}

/** Has what was held back until now be sent. */
function release(now) {
  return store.release(seat, now).then(() => sync.nudge());
}

/** Has it shown, one time after the other: what has changed since one began is taken in by the next, for all who ask meanwhile. */
function refresh() {
  next ??= running.catch(() => {}).then(() => {
    next = undefined;
    return (running = show());
  });
  return next;
}

/** What a person did: is shown at once, and kept by `keep`. */
async function attempt(calls, keep) {
  const [made, change] = view.attempt(calls);
  page.show(change);
  try {
    await keep(() => (made.isOver = true));
  } catch (error) {
    made.isOver = true;
    await refresh();
    page.setOutcome({ kind: "broken", error: error.message }, []);
  }
}

/** What a round came to. Where the server does not answer, a link over which no poke comes may be dead as well. */
async function told(outcome, confirmed) {
  if (outcome.kind === "unreachable") pokes.renew();
  await refresh();
  page.setOutcome(outcome, confirmed);
}

function start() {
  sync.run();
  pokes.run();
  addEventListener("offline", () => pokes.renew());
  addEventListener("online", () => {
    pokes.renew();
    sync.wake();
  });
  // a window that was frozen in the background may have heard nothing of what others did
  const lookAgain = () => {
    refresh();
    sync.wake();
  };
  document.addEventListener("visibilitychange", lookAgain);
  document.addEventListener("resume", lookAgain);
  addEventListener("pageshow", lookAgain);
}

profileID = (await store.session())?.profileID;
store.onChange(refresh);
await refresh();
if (profileID === undefined) page.askWho();
else start();

// without it all works, but for loading the page while there is no network
navigator.serviceWorker?.register("worker.js").catch(() => {});
