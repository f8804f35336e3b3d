/** Which part of the page an address names: a list, at a todo or not; what was searched for; what is completed; or none. */
export const addressOf = (listID, todoID) => `#${encodeURIComponent(listID)}${todoID === undefined ? "" : `/${encodeURIComponent(todoID)}`}`;

// no list has such an address, since these characters are escaped in ids
export const COMPLETED = "#/completed";
const SEARCH = "#?";

export const searchFor = (text) => `${SEARCH}${encodeURIComponent(text)}`;

function decoded(text) {
  try {
    return decodeURIComponent(text);
  } catch {
    return undefined;
  }
}

/** The place that an address names: `{ listID, todoID }`, `{ text }`, `{ isCompleted }` or `{}`. */
export function placeOf(address) {
  if (address === COMPLETED) return { isCompleted: true };
  if (address.startsWith(SEARCH)) return { text: decoded(address.slice(SEARCH.length)) ?? "" };
  const [listID, todoID] = address.slice(1).split("/").map(decoded);
  return { listID, todoID };
}
