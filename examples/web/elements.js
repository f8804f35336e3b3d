/** Elements of the page, by their ids, and lists of elements that follow lists of things. */
export const byId = (id) => document.getElementById(id);

/** An element with these properties and children. */
export function element(tag, properties = {}, ...children) {
  const made = Object.assign(document.createElement(tag), properties);
  made.append(...children);
  return made;
}

/** Has an element show one text, and leaves it alone where it already does. */
export function setText(shown, text) {
  if (shown.textContent !== text) shown.textContent = text;
}

/** Has `child` stand before `next` in `parent`, or as the last where that is null. The focus stays where it is. */
export function putBefore(parent, child, next) {
  if (child.parentElement === parent && child.nextElementSibling === next) return;
  if (child.isConnected && parent.moveBefore !== undefined) {
    parent.moveBefore(child, next);
    return;
  }
  const focused = child.contains(document.activeElement) ? document.activeElement : undefined;
  parent.insertBefore(child, next);
  focused?.focus({ preventScroll: true });
}

/**
 * Makes the children of `parent` those of `things`, one each, in their order. A child stays the same element as long as its
 * thing, known by its id, is there: so the focus, and what a person is just typing, stay where they are.
 */
export function follow(parent, things, make, update) {
  const old = new Map([...parent.children].map((child) => [child.dataset.id, child]));
  let next = parent.firstElementChild;
  for (const thing of things) {
    const kept = old.get(thing.id);
    const child = kept ?? make(thing.id);
    child.dataset.id = thing.id;
    update(child, thing);
    if (child === next) next = next.nextElementSibling;
    else putBefore(parent, child, next);
    old.delete(thing.id);
  }
  for (const child of old.values()) child.remove();
}

/** Asks a person a question that has this yes, or tells them something where there is none. */
export function saysYes(question, yes) {
  const dialog = byId("question");
  setText(byId("question-text"), question);
  setText(byId("question-yes"), yes ?? "");
  byId("question-yes").hidden = yes === undefined;
  setText(byId("question-no"), yes === undefined ? "Close" : "Cancel");
  dialog.returnValue = "";
  dialog.showModal();
  return new Promise((resolve) => {
    dialog.addEventListener("close", () => resolve(dialog.returnValue === "yes"), { once: true });
  });
}
