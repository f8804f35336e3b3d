/**
 * The nine mutators, on the rows that this browser knows (`Rows` of rows.js), by the protocol's keys, `extent/USER`, `list/ID`,
 * `share/ID` and `todo/ID`. The server has the last word by the same rules over all rows (docs/protocol.md, "Mutators"): a call
 * whose condition fails has no effect, there as here.
 */

/** Whether the user sees the list: they own it, or a share of it names them; and their extent names it, if they have one. */
export function sees(view, user, listID) {
  const [list, extent] = [view.get(`list/${listID}`), view.get(`extent/${user}`)];
  if (list === undefined || extent?.lists.includes(listID) === false) return false;
  return list.ownerID === user || view.sharesOf(listID).some((share) => share.userID === user);
}

/** Whether the user may edit the list's todos: they own it, or a share of it that is not for looking alone names them. */
export function mayEdit(view, user, listID) {
  const list = view.get(`list/${listID}`);
  const lets = (share) => share.userID === user && share.role !== "view";
  return list !== undefined && (list.ownerID === user || view.sharesOf(listID).some(lets));
}

/** A share with a role; as the server's, one that lets edit names none. */
function withRole({ id, listID, userID }, role) {
  return role === "view" ? { id, listID, role, userID } : { id, listID, userID };
}

export const mutators = {
  createList(view, user, { id, name, ownerID }) {
    if (view.has(`list/${id}`) || ownerID !== user) return;
    view.set(`list/${id}`, { id, name, ownerID });
  },

  deleteList(view, user, id) {
    if (view.get(`list/${id}`)?.ownerID !== user) return;
    view.delete(`list/${id}`);
    for (const share of view.sharesOf(id)) view.delete(`share/${share.id}`);
    // the todos are those of the view itself, which get fewer at each
    for (const todo of [...view.todosOf(id)]) view.delete(`todo/${todo.id}`);
  },

  createShare(view, user, { id, listID, userID, role }) {
    if (view.get(`list/${listID}`)?.ownerID !== user || userID === user || view.has(`share/${id}`)) return;
    if (view.sharesOf(listID).some((share) => share.userID === userID)) return;
    view.set(`share/${id}`, withRole({ id, listID, userID }, role));
  },

  updateShare(view, user, { id, role }) {
    const share = view.get(`share/${id}`);
    if (share === undefined || view.get(`list/${share.listID}`)?.ownerID !== user) return;
    view.set(`share/${id}`, withRole(share, role));
  },

  deleteShare(view, user, id) {
    const share = view.get(`share/${id}`);
    if (share === undefined) return;
    if (share.userID === user || view.get(`list/${share.listID}`)?.ownerID === user) view.delete(`share/${id}`);
  },

  createTodo(view, user, { id, listID, text, complete }) {
    if (view.has(`todo/${id}`) || !mayEdit(view, user, listID)) return;
    const greatest = view.todosOf(listID).at(-1)?.sort ?? 0;
    const sort = Math.min(Math.max(0, greatest) + 1, Number.MAX_SAFE_INTEGER);
    view.set(`todo/${id}`, { id, listID, text, complete, sort });
  },

  updateTodo(view, user, { id, text, complete, sort }) {
    const todo = view.get(`todo/${id}`);
    if (todo === undefined || !mayEdit(view, user, todo.listID)) return;
    view.set(`todo/${id}`, { ...todo, text: text ?? todo.text, complete: complete ?? todo.complete, sort: sort ?? todo.sort });
  },

  deleteTodo(view, user, id) {
    const todo = view.get(`todo/${id}`);
    if (todo !== undefined && mayEdit(view, user, todo.listID)) view.delete(`todo/${id}`);
  },

  setExtent(view, user, { lists }) {
    if (lists === null) view.delete(`extent/${user}`);
    else view.set(`extent/${user}`, { lists: [...new Set(lists)], user });
  },
};
