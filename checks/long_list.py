"""How long an edit takes until it is shown in a list of thousands, for checks/page.py."""
import statistics
import time

from links import same, wrong
from proxied import asked

# Of each of so many lists, how many todos; how many edits of each kind are measured; and in milliseconds how long their median may be.
LISTS, TODOS, EDITS, GOAL = 5, 2_000, 24, 50
# How often a kind is measured at most until it is below, on a machine that is busy with other work meanwhile.
TURNS = 4
# How many mutations one push has.
PUSHED = 500

# Measures from an act, or from the answer to a pull, until what it changes is on the screen: that is after the frame in which it is
# drawn, whose next task comes when it was painted.
MEASURING = """
const todos = document.getElementById("todos");
const items = () => [...todos.querySelectorAll(".todo")];
const painted = () => new Promise((resolve) => requestAnimationFrame(() => {
  const channel = new MessageChannel();
  channel.port1.onmessage = resolve;
  channel.port2.postMessage("");
}));
const shows = (isShown) => new Promise((resolve) => {
  const observer = new MutationObserver(() => {
    if (!isShown()) return;
    observer.disconnect();
    resolve(painted());
  });
  observer.observe(todos, { childList: true, subtree: true, attributes: true, characterData: true });
});
const fetched = window.fetch;
window.fetch = async (...words) => {
  const response = await fetched(...words);
  if (words[0] === "pull") window.pulled = performance.now();
  return response;
};
// each makes ready what a person sees as they act, and gives the act itself and when it is shown
const acts = {
  add(number) {
    const field = document.getElementById("todo-text");
    field.value = `added ${number}`;
    field.focus();
    const isShown = () => items().at(-1).querySelector(".text").textContent === `added ${number}`;
    return [() => document.getElementById("todo-form").requestSubmit(), isShown];
  },
  check(number) {
    const item = inSight(number * 83);
    const isComplete = item.classList.contains("complete");
    return [() => item.querySelector(".check").click(), () => item.classList.contains("complete") !== isComplete];
  },
  rename(number) {
    const item = inSight(number * 79);
    item.querySelector(".text").click();
    const field = item.querySelector(".rename");
    field.value = `renamed ${number}`;
    const enter = () => field.dispatchEvent(new KeyboardEvent("keydown", { key: "Enter" }));
    return [enter, () => item.querySelector(".text").textContent === `renamed ${number}`];
  },
  delete(number) {
    const item = inSight(number * 73);
    return [() => item.querySelector(".remove").click(), () => !item.isConnected];
  },
};
const inSight = (place) => {
  const item = items()[place % items().length];
  item.scrollIntoView({ block: "center" });
  return item;
};
window.items = items;
window.measureAct = async (kind, number) => {
  const [act, isShown] = acts[kind](number);
  // what was scrolled to is drawn before a person can see it and act
  await new Promise((resolve) => setTimeout(resolve, 200));
  await painted();
  const [shown, start] = [shows(isShown), performance.now()];
  act();
  await shown;
  return performance.now() - start;
};
window.measurePull = (id, text) => {
  const item = todos.querySelector(`[data-id="${id}"]`);
  item.scrollIntoView({ block: "center" });
  window.measuredPull = shows(() => item.querySelector(".text").textContent === text).then(() => performance.now() - window.pulled);
};
"""


class Filler:
    """A client of ann's with no window, which makes the lists."""

    def __init__(self, site):
        self.site, self.next_id = site, 1

    def push(self, *calls):
        mutations = [{"clientID": "filler", "id": self.next_id + at, "name": name, "args": args} for at, (name, args) in enumerate(calls)]
        self.next_id += len(calls)
        same("a push's status", 200, asked(self.site.connection(), "push", "ann", {"pushVersion": 1, "clientGroupID": "filler", "mutations": mutations})[0])

    def fill(self):
        self.push(*(("createList", {"id": f"l{place}", "name": f"List {place}", "ownerID": "ann"}) for place in range(LISTS)))
        todos = [("createTodo", {"id": f"t{number}", "listID": f"l{number % LISTS}", "text": f"Thing {number}", "complete": number % 3 == 0})
                 for number in range(LISTS * TODOS)]
        for start in range(0, len(todos), PUSHED):
            self.push(*todos[start:start + PUSHED])


def measure_acts(ann, kind, start):
    """The milliseconds that edits of this kind by ann took until they were shown."""
    took = []
    for number in range(start, start + EDITS):
        took.append(ann.window.run("return measureAct(...arguments)", kind, number))
        time.sleep(0.1)
    return took


def measure_pulls(ann, filler, start):
    """The milliseconds from the answer to a pull until what it brought was shown."""
    ann.in_step()
    took = []
    for number in range(start, start + EDITS):
        todo = ann.window.run("return items()[arguments[0]].dataset.id", number * 17 + 5)
        text = f"from afar {number}"
        ann.window.run("measurePull(...arguments)", todo, text)
        filler.push(("updateTodo", {"id": todo, "text": text}))
        took.append(ann.window.run("return measuredPull"))
    return took


def check_long_list(ann, site):
    """An edit of one todo is shown soon with thousands of them, whoever made it."""
    filler = Filler(site)
    filler.fill()
    ann.sign_in()
    ann.open_list("List 0")
    ann.waits("all todos", "return document.querySelectorAll('#todos .todo').length === arguments[0]", TODOS)
    ann.in_step()
    ann.window.run(MEASURING)
    shown = []
    for kind in ("add", "check", "rename", "delete", "pull"):
        for turn in range(TURNS):
            took = measure_pulls(ann, filler, turn * EDITS) if kind == "pull" else measure_acts(ann, kind, turn * EDITS)
            if statistics.median(took) <= GOAL:
                break
        else:
            wrong(f"half of the edits ({kind}) were shown only after {statistics.median(took):.0f} ms or more, and {GOAL} is the goal")
        shown.append(f"{kind} {statistics.median(took):.0f} ms (at most {max(took):.0f}{', turn ' + str(turn + 1) if turn else ''})")
    print(f"long lists: with {TODOS} todos in the list and {LISTS * TODOS} in all the medians of {EDITS} edits each were {', '.join(shown)}")
