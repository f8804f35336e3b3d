/** In words: how things stand between this browser and the server, and what a person has to know or to do about it. */
import { byId, setText } from "./elements.js";

export const changesText = (count) => (count === 1 ? "1 change" : `${count} changes`);

/** The state that the page is in by the last round, and the text of it. */
export function stateOf(outcome, isOnline, waiting) {
  const counted = waiting > 0 ? ` · ${waiting} waiting` : "";
  if (!isOnline || outcome?.kind === "unreachable") return ["offline", `Offline${counted}`];
  if (outcome?.kind === "key") return ["trouble", `Key needed${counted}`];
  if (["version", "refused", "broken"].includes(outcome?.kind)) return ["trouble", `Not in step${counted}`];
  if (outcome === undefined || outcome.kind === "anew" || waiting > 0) return ["busy", waiting > 0 ? `Sending ${changesText(waiting)}` : "Connecting"];
  return ["in-step", "Up to date"];
}

/** What a person has to know or to do about what a round came to, or nothing. */
export function noticeOf(outcome, { user, groupID }) {
  if (outcome?.kind === "key") return "The server does not know this key. Your changes are kept here until it does.";
  if (outcome?.kind === "version") return "The server speaks another version than this page. Load the page again; your changes are kept here.";
  if (outcome?.error === "GroupOfOther") return `This key belongs to somebody else than ${user}. Your changes are kept here.`;
  if (outcome?.error === "Future") {
    return `The server has forgotten changes of this browser. Whoever runs it can end its client group ${groupID}; it then begins anew.`;
  }
  if (outcome?.kind === "broken") return `This browser could not keep its copy: ${outcome.error}.`;
  if (outcome?.kind === "refused") return `The server answers ${outcome.error ?? outcome.status}. Your changes are kept here, and are sent again.`;
  return "";
}

/**
 * The server tells nobody who they are. That it gives lists or an extent of others, or makes no list where that was asked in this
 * name, shows that the key has another.
 */
export const otherName = (user) => `This key is not ${user}’s. Sign out, and sign in with the name that the key has at the server.`;

/** Shows a notice, or none where it is empty. */
export function showNotice(text) {
  setText(byId("notice-text"), text);
  byId("notice").hidden = text === "";
  byId("top").classList.toggle("with-notice", text !== "");
}

/** Says that a window with an older version of the page is open. */
export function tellOlder() {
  showNotice("An older version of this page is open in another window. Close that window, and this one goes on.");
}
