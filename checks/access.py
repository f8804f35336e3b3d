"""What a page owes to those who use it by keys, by a screen reader, with large text or on a small screen, for checks/page.py."""
import time

from links import same, wrong

# In CSS pixels: the narrowest width at which nothing is to be cut; which is also a window of 640 with text of 200 percent.
NARROW = 320
# After so many seconds a window that was made narrow is laid out.
SETTLED = 3
# What a text's contrast is at least, and that of a large one.
CONTRAST, LARGE = 4.5, 3

# Each thing that is wrong with what is shown: the rules of WCAG that a script can tell.
AUDIT = """
const [least, large] = arguments;
const found = [];
const isSeen = (element) => element.checkVisibility({ visibilityProperty: true, opacityProperty: true });
const told = (element) => `${element.localName}${element.id ? "#" + element.id : ""}${element.className ? "." + element.className : ""}`;
const textsOf = (ids) => ids.split(" ").map((id) => document.getElementById(id)?.textContent ?? "").join(" ");
const nameOf = (element) => (element.getAttribute("aria-label") || textsOf(element.getAttribute("aria-labelledby") ?? "")
  || [...(element.labels ?? [])].map((label) => label.textContent).join(" ") || element.textContent || "").trim();
for (const element of document.querySelectorAll("a, button, input, select, textarea, [tabindex], progress, dialog[open], nav, [role=group]")) {
  if (isSeen(element) && nameOf(element) === "" && !element.matches("dialog")) found.push(`no name: ${told(element)}`);
}
const ids = [...document.querySelectorAll("[id]")].map(({ id }) => id);
for (const id of new Set(ids.filter((id, place) => ids.indexOf(id) !== place))) found.push(`the id ${id} stands twice`);
if (document.documentElement.lang === "") found.push("no language");
if (document.title === "") found.push("no title");
const mains = [...document.querySelectorAll("main")].filter(isSeen);
if (mains.length > 1) found.push("two main parts");
let level = 0;
for (const heading of document.querySelectorAll("h1, h2, h3, h4")) {
  if (!isSeen(heading)) continue;
  const next = Number(heading.localName[1]);
  if (next > level + 1) found.push(`a heading of level ${next} after one of level ${level}: ${heading.textContent}`);
  level = next;
}
for (const list of document.querySelectorAll("ul, [role=list]")) {
  if (list.getAttribute("role") !== "list") found.push(`a list that some readers don't take for one: ${told(list)}`);
  const items = [...list.children].flatMap((child) => (child.getAttribute("role") === "presentation" ? [...child.children] : [child]));
  if (items.some((item) => item.localName !== "li" && item.getAttribute("role") !== "listitem")) found.push(`more than items in ${told(list)}`);
}
const context = new OffscreenCanvas(1, 1).getContext("2d", { willReadFrequently: true });
const channels = (colour) => {
  context.clearRect(0, 0, 1, 1);
  context.fillStyle = colour;
  context.fillRect(0, 0, 1, 1);
  const [red, green, blue, alpha] = context.getImageData(0, 0, 1, 1).data;
  return [red, green, blue, alpha / 255];
};
const over = ([r, g, b, a], [r2, g2, b2]) => [r * a + r2 * (1 - a), g * a + g2 * (1 - a), b * a + b2 * (1 - a), 1];
const behind = (element) => {
  if (element === null) return [255, 255, 255, 1];
  const colour = channels(getComputedStyle(element).backgroundColor);
  return colour[3] === 1 ? colour : over(colour, behind(element.parentElement));
};
const light = (colour) => {
  const [r, g, b] = colour.slice(0, 3).map((part) => (part / 255 <= 0.04045 ? part / 255 / 12.92 : ((part / 255 + 0.055) / 1.055) ** 2.4));
  return 0.2126 * r + 0.7152 * g + 0.0722 * b;
};
const contrast = (one, other) => {
  const [low, high] = [light(one), light(other)].sort((a, b) => a - b);
  return (high + 0.05) / (low + 0.05);
};
const check = (element, pseudo) => {
  const style = getComputedStyle(element, pseudo);
  const back = behind(element);
  const size = parseFloat(style.fontSize);
  const isLarge = size >= 24 || (size >= 18.66 && Number(style.fontWeight) >= 700);
  const has = contrast(over(channels(style.color), back), back);
  if (has < (isLarge ? large : least)) found.push(`contrast ${has.toFixed(2)}: ${told(element)}${pseudo ?? ""}`);
};
for (const element of document.querySelectorAll("body *")) {
  if (!isSeen(element) || element.matches(":disabled, .unseen") || element.closest(".unseen")) continue;
  if ([...element.childNodes].some((node) => node.nodeType === Node.TEXT_NODE && node.data.trim() !== "")) check(element);
  if (element.matches("input:not([type=checkbox])")) { check(element); check(element, "::placeholder"); }
  for (const pseudo of ["::before", "::after"]) if (/[^"\\s]/.test(getComputedStyle(element, pseudo).content.replace("none", ""))) check(element, pseudo);
}
return found;
"""
# What stands out of a window at its side, where nothing may.
TOO_WIDE = """
const [width] = arguments;
const isOut = (one) => one.checkVisibility() && !one.matches(".unseen") && one.getBoundingClientRect().right > width + 1;
return [...document.querySelectorAll("body *")].filter(isOut).map((one) => `${one.localName}#${one.id}.${one.className}`).slice(0, 9);
"""
# Whether the element with the focus shows it, and is not covered.
FOCUS = """
const focused = document.activeElement;
const style = getComputedStyle(focused);
const box = focused.getBoundingClientRect();
const top = document.elementFromPoint(box.left + box.width / 2, box.top + box.height / 2);
return {
  isNone: focused === document.body,
  name: focused.getAttribute("aria-label") || focused.labels?.[0]?.textContent || focused.textContent.trim(), id: focused.id, kind: focused.className,
  isShown: style.outlineStyle !== "none" && parseFloat(style.outlineWidth) >= 2, isClear: top !== null && (focused.contains(top) || top.contains(focused)),
};
"""


def audit(person, what):
    """What is shown has names, roles, headings, lists and contrast as it should, in light and in dark."""
    for scheme in ("light", "dark"):
        person.window.devtools("Emulation.setEmulatedMedia", features=[{"name": "prefers-color-scheme", "value": scheme}])
        same(f"what is wrong with {what}, in {scheme}", [], person.window.run(AUDIT, CONTRAST, LARGE))
    person.window.devtools("Emulation.setEmulatedMedia", features=[])


def fits(person, what):
    """Nothing stands out of a narrow window, nor out of a phone's with text of 200 percent."""
    person.window.devtools("Emulation.setDeviceMetricsOverride", width=NARROW, height=640, deviceScaleFactor=1, mobile=True)
    for size in ("100%", "200%"):
        person.window.run("document.documentElement.style.fontSize = arguments[0]", size)
        # parts of a long list are laid out anew only where they come into sight, with the next frame
        end = time.monotonic() + SETTLED
        while (wide := person.window.run(TOO_WIDE, NARROW)) and time.monotonic() < end:
            time.sleep(0.1)
        same(f"what stands out of a window of {NARROW} pixels with text of {size}, of {what}", [], wide)
    person.window.run("document.documentElement.style.fontSize = ''")
    person.window.devtools("Emulation.clearDeviceMetricsOverride")


def tab_to(window, wanted, most=60, back=False):
    """Presses Tab until what is wanted has the focus; each element on the way shows that it has it."""
    for _ in range(most):
        window.press_with("Shift", "Tab") if back else window.press("Tab")
        focus = window.run(FOCUS)
        if focus["isNone"]:  # between the last and the first
            continue
        if not focus["isShown"] or not focus["isClear"]:
            wrong(f"the focus is not seen at {focus}")
        if wanted in (focus["name"], focus["id"]):
            return
    wrong(f"Tab doesn't lead to {wanted!r}")


def check_keys(ann):
    """A todo is made, completed, moved, deleted and undone by keys alone."""
    window = ann.window
    window.run("document.querySelector('.brand').focus()")
    tab_to(window, "list-name")
    window.press(*"Keys", "Enter")
    ann.waits("the list Keys", "return document.getElementById('list-title').textContent === 'Keys'")
    ann.waits("the field of a new todo has the focus", "return document.activeElement.id === 'todo-text'")
    for text in ("one", "two"):
        window.press(*text, "Enter")
        ann.made.append(text)
        ann.shows(text)
    tab_to(window, "two", back=True)
    window.press("Enter", *"three", "Enter")
    ann.shows("three")
    tab_to(window, "Move three, with the arrow keys", back=True)
    window.press("ArrowUp")
    ann.waits("the order", "return [...document.querySelectorAll('#todos .text')].map((one) => one.textContent).join() === 'three,one'")
    same("what has the focus after a move", "Move three, with the arrow keys", window.run(FOCUS)["name"])
    # its box is named like its text, and stands before it
    tab_to(window, "three")
    window.press(" ")
    ann.shows("three", True)
    tab_to(window, "Delete three")
    window.press("Enter")
    ann.is_gone("three")
    ann.waits("that it was said", "return document.getElementById('undo-news').textContent.includes('Deleted “three”')")
    window.press_with("Control", "z")
    ann.shows("three", True)
    ann.waits("that it was said", "return document.getElementById('undo-news').textContent === '“three” is back'")
    tab_to(window, "delete-list")
    window.press("Enter")
    ann.waits("the question", "return document.getElementById('question').open")
    tab_to(window, "question-yes")
    window.press("Enter")
    ann.offered("Keys")
    tab_to(window, "delete-now")
    window.press("Enter")
    ann.not_offered()
    print("keys: a list and todos were made, renamed, moved, completed, deleted and undone by keys alone, and the focus was seen all along")
