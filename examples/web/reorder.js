/** Lets a person move an item of a list by its grip: with a mouse or a finger, or with the arrow keys. */

/** The place that an item takes at this height: after all others whose middle is above it. */
function placeAt(items, item, height) {
  return items.filter((other) => other !== item && other.getBoundingClientRect().top + other.offsetHeight / 2 < height).length;
}

/**
 * `itemsOf` gives the items of `list` that a person sees, in their order; `moved` is called with the place among them where an
 * item stood and the one where it is to stand.
 */
export function makeMovable(list, itemsOf, moved) {
  const placeOf = (item) => itemsOf().indexOf(item);

  list.addEventListener("keydown", (event) => {
    if (!event.target.matches(".grip")) return;
    const from = placeOf(event.target.parentElement);
    const to = from + ({ ArrowUp: -1, ArrowDown: 1 }[event.key] ?? NaN);
    if (!(to >= 0 && to < itemsOf().length)) return;
    event.preventDefault();
    moved(from, to);
  });

  list.addEventListener("pointerdown", (event) => {
    const grip = event.target;
    if (event.button !== 0 || !grip.matches(".grip")) return;
    event.preventDefault();
    grip.focus();
    grip.setPointerCapture(event.pointerId);
    const item = grip.parentElement;
    const drag = { from: placeOf(item), to: placeOf(item), start: event.clientY };
    item.classList.add("dragged");
    list.classList.add("reordered");

    const follow = ({ clientY }) => {
      const items = itemsOf();
      drag.to = placeAt(items, item, clientY);
      item.style.translate = `0 ${clientY - drag.start}px`;
      items.forEach((other, place) => {
        if (other === item) return;
        const shift = Number(place < drag.from && place >= drag.to) - Number(place > drag.from && place <= drag.to);
        other.style.translate = shift === 0 ? "" : `0 ${shift * item.offsetHeight}px`;
      });
    };
    const drop = ({ type }) => {
      grip.removeEventListener("pointermove", follow);
      grip.removeEventListener("pointerup", drop);
      grip.removeEventListener("pointercancel", drop);
      item.classList.remove("dragged");
      list.classList.remove("reordered");
      for (const other of itemsOf()) other.style.translate = "";
      if (type === "pointerup" && drag.to !== drag.from) moved(drag.from, drag.to);
    };
    grip.addEventListener("pointermove", follow);
    grip.addEventListener("pointerup", drop);
    grip.addEventListener("pointercancel", drop);
  });
}
