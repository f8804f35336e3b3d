#!/usr/bin/env python3
"""Checks the page of examples/web in a real browser: checks/page.py PROGRAM [PICTURES]

PROGRAM is the program `rv` as it was built. It serves a store in a file behind HAProxy with examples/deploy/haproxy.cfg, over TLS, and
ann and bob have a window each, which are headless Chromiums with profiles of their own. Each part prints a line with what was seen; in
between pictures of the windows go to the folder PICTURES, or to one that is made and told. At the end both windows show what a pull
from nothing gives, and each edit of each window stands once in the book. Ends with status 1 at the first thing that is wrong. Needs
Debian's chromium, chromium-driver, haproxy and openssl; where one is not installed it says so, and checks nothing.
"""
import contextlib
import json
import os
import pathlib
import sqlite3
import subprocess
import sys
import tempfile
import time

from access import audit, check_keys, fits
from browser import Driver, Window
from links import free_port, same, wrong
from long_list import check_long_list
from proxied import KEYS, Site, missing_tools

# In seconds: when one window must show what another did, while both have a link for pokes; and when it must after any trouble.
SOON, LATE = 2, 60
PHONE = {"width": 390, "height": 844, "deviceScaleFactor": 2, "mobile": True}

SHOWN = """
const texts = [...document.querySelectorAll("#todos .todo")].map((todo) => [todo.querySelector(".text").textContent, todo.querySelector(".check").checked]);
"""
# What a window keeps: its session, its base view and what waits.
KEPT = """
return new Promise((resolve, reject) => {
  const opening = indexedDB.open("rv-lists");
  opening.onerror = () => reject(opening.error);
  opening.onsuccess = () => {
    const transaction = opening.result.transaction(["session", "rows", "pending", "seats"]);
    const asked = {
      session: transaction.objectStore("session").get("session"), keys: transaction.objectStore("rows").getAllKeys(),
      values: transaction.objectStore("rows").getAll(), pending: transaction.objectStore("pending").getAll(),
      clients: transaction.objectStore("seats").getAll(),
    };
    transaction.oncomplete = () => {
      opening.result.close();
      resolve(Object.fromEntries(Object.entries(asked).map(([name, request]) => [name, request.result])));
    };
  };
});
"""
# Adds todos by the page's own form, one after the other, with a pause between in milliseconds.
ADDING = """
const [prefix, count, pause] = arguments;
let number = 0;
const timer = setInterval(() => {
  number += 1;
  document.getElementById("todo-text").value = `${prefix} ${number}`;
  document.getElementById("todo-form").requestSubmit();
  if (number === count) clearInterval(timer);
}, pause);
"""


class Person:
    """A user with a window, who keeps count of the todos that they made."""

    def __init__(self, driver, site, user):
        self.user, self.site, self.made = user, site, []
        self.window = Window(driver, site.folder / f"profile-{user}", trusted=site.trusted)
        self.window.open(site.address)
        self.window.waits("the sign-in", "return !document.getElementById('sign-in').hidden")

    def sign_in(self):
        self.window.type("#sign-in-user", self.user)
        self.window.type("#sign-in-key", KEYS[self.user], "Enter")
        self.in_step()

    def waits(self, what, script, *words, seconds=LATE):
        return self.window.waits(f"{self.user}: {what}", script, *words, seconds=seconds)

    def in_step(self):
        return self.waits("in step, and nothing waits", """
            const { state, waiting } = document.getElementById("status").dataset;
            return state === "in-step" && waiting === "0";""")[1]

    def in_state(self, state, waiting):
        self.waits(f"the state {state} with {waiting} waiting", """
            const status = document.getElementById("status").dataset;
            return status.state === arguments[0] && status.waiting === String(arguments[1]);""", state, waiting)

    def notice(self, text):
        self.waits(f"the notice {text!r}", """
            const notice = document.getElementById("notice");
            return !notice.hidden && notice.innerText.includes(arguments[0]);""", text)

    def make_list(self, name):
        self.window.type("#list-name", name, "Enter")
        self.waits(f"the list {name}", "return document.getElementById('list-title').textContent === arguments[0]", name)

    def open_list(self, name):
        self.waits(f"the list {name}", """
            const link = [...document.querySelectorAll("#lists a")].find((one) => one.querySelector(".name").textContent === arguments[0]);
            link?.click();
            return link !== undefined;""", name)
        self.waits(f"the list {name} is shown", "return document.getElementById('list-title').textContent === arguments[0]", name)

    def share(self, user):
        self.window.type("#share-user", user, "Enter")

    def add(self, text):
        self.made.append(text)
        self.window.type("#todo-text", text, "Enter")

    def begin_adding(self, prefix, count, pause):
        self.made += [f"{prefix} {number + 1}" for number in range(count)]
        self.window.run(ADDING, prefix, count, pause)

    def todo(self, text):
        """A selector of the todo with this text, which is in sight then."""
        found = self.window.run("""
            const todos = [...document.querySelectorAll("#todos .todo")];
            const found = todos.find((todo) => todo.querySelector(".text").textContent === arguments[0]);
            found?.scrollIntoView({ block: "center" });
            return found?.dataset.id ?? null;""", text)
        if found is None:
            wrong(f"{self.user} has no todo {text!r}")
        return f"#todos [data-id='{found}']"

    def check(self, text):
        self.window.click(f"{self.todo(text)} .check")

    def rename(self, text, new):
        self.window.click(f"{self.todo(text)} .text")
        self.window.run("document.querySelector('.rename').select()")
        self.window.type(".rename", new, "Enter")

    def delete(self, text, is_final=True):
        self.window.click(f"{self.todo(text)} .remove")
        if is_final:
            self.delete_now(text)

    def offered(self, text):
        self.waits(f"the offer to undo {text!r}", """
            return !document.getElementById("offer").hidden && document.getElementById("offer-text").textContent.includes(arguments[0]);""", text)

    def delete_now(self, text):
        self.offered(text)
        self.window.click("#delete-now")
        self.not_offered()

    def not_offered(self):
        self.waits("no offer to undo", "return document.getElementById('offer').hidden")

    def is_gone(self, text):
        self.waits(f"{text!r} is gone", SHOWN + "return !texts.some(([text]) => text === arguments[0]);", text)

    def shown(self):
        """The todos of the list that is open, in their order, with whether each is complete."""
        return self.window.run(SHOWN + "return texts;")

    def shows(self, text, is_complete=False, seconds=LATE):
        """Waits until a todo with this text is shown. How long it took."""
        what = f"a todo {text!r}, complete: {is_complete}"
        return self.waits(what, SHOWN + "return texts.some(([text, complete]) => text === arguments[0] && complete === arguments[1]);",
                          text, is_complete, seconds=seconds)[1]

    def set_network(self, is_there):
        limits = {"latency": 0, "downloadThroughput": -1, "uploadThroughput": -1}
        self.window.devtools("Network.enable")
        self.window.devtools("Network.emulateNetworkConditions", offline=not is_there, **limits)

    def kept(self):
        return self.window.run(KEPT)


class Pictures:
    def __init__(self, folder):
        self.folder, self.count = folder, 0
        folder.mkdir(parents=True, exist_ok=True)

    def take(self, person, name):
        self.count += 1
        person.window.picture(self.folder / f"{self.count:02}-{name}-{person.user}.png")

    def take_all_looks(self, person, name):
        """In light and dark, and both at a phone's width too; and audits what is shown."""
        devtools = person.window.devtools
        audit(person, name)
        fits(person, name)
        for scheme in ("light", "dark"):
            devtools("Emulation.setEmulatedMedia", features=[{"name": "prefers-color-scheme", "value": scheme}])
            self.take(person, f"{name}-{scheme}")
            devtools("Emulation.setDeviceMetricsOverride", **PHONE)
            if person.window.run("return document.documentElement.scrollWidth > innerWidth"):
                wrong(f"{name} at a phone's width is wider than the phone")
            self.take(person, f"{name}-phone-{scheme}")
            devtools("Emulation.clearDeviceMetricsOverride")
        devtools("Emulation.setDeviceMetricsOverride", **{**PHONE, "width": 320, "height": 640})
        self.take(person, f"{name}-narrow")
        person.window.run("document.documentElement.style.fontSize = '200%'")
        self.take(person, f"{name}-narrow-large")
        person.window.run("document.documentElement.style.fontSize = ''")
        devtools("Emulation.clearDeviceMetricsOverride")
        devtools("Emulation.setEmulatedMedia", features=[])


def check_following(ann, bob, pictures):
    """What one does stands in the other's window within two seconds."""
    pictures.take_all_looks(ann, "sign-in")
    ann.sign_in()
    bob.sign_in()
    ann.make_list("Groceries")
    ann.share("bob")
    bob.open_list("Groceries")
    took = []
    for number in range(1, 6):
        ann.add(f"milk {number}")
        took.append(bob.shows(f"milk {number}", seconds=SOON))
        bob.add(f"bread {number}")
        took.append(ann.shows(f"bread {number}", seconds=SOON))
    ann.check("bread 1")
    took.append(bob.shows("bread 1", True, seconds=SOON))
    bob.rename("milk 2", "oat milk")
    took.append(ann.shows("oat milk", seconds=SOON))
    ann.delete("milk 3")
    took.append(bob.waits("milk 3 is gone", SHOWN + "return !texts.some(([text]) => text === 'milk 3');", seconds=SOON)[1])
    print(f"following: {len(took)} edits stood in the other window after at most {max(took) * 1000:.0f} ms")


def check_order(ann, bob):
    """A todo that is moved, by the mouse and by the keys, is moved in the other window too."""
    first, second, third = (text for text, _ in ann.shown()[:3])
    rest = [text for text, _ in ann.shown()[3:]]
    ann.window.drag(f"{ann.todo(first)} .grip", f"{ann.todo(third)} .grip")
    bob.waits("the todo that was dragged", SHOWN + "return texts[2][0] === arguments[0];", first)
    ann.window.run("document.querySelector(arguments[0]).focus()", f"{ann.todo(third)} .grip")
    ann.window.press("ArrowUp")
    expected = [third, second, first, *rest]
    bob.waits("the todo that was moved by a key", SHOWN + "return texts.map(([text]) => text).join() === arguments[0];", ",".join(expected))
    same("the order that ann sees", expected, [text for text, _ in ann.shown()])
    print("order: a todo was moved by the mouse and one by a key, in both windows")


def come_together(*people):
    """Waits until all are in step and show the same todos. How long it took."""
    start = time.monotonic()
    while True:
        shown = []
        for person in people:
            person.in_step()
            shown.append(person.shown())
        if all(one == shown[0] for one in shown):
            return time.monotonic() - start
        if time.monotonic() - start > LATE:
            wrong(f"after {LATE} s the windows show {shown}")
        time.sleep(0.02)


def check_offline(ann, bob, pictures):
    """Both edit while one has no network, and both show the same when it is back."""
    bob.set_network(False)
    bob.in_state("offline", 0)
    bob.add("eggs, offline")
    bob.check("bread 2")
    bob.rename("bread 3", "dark bread")
    bob.delete("bread 4")
    bob.in_state("offline", 4)
    ann.add("coffee, meanwhile")
    ann.rename("bread 3", "white bread")
    ann.delete("bread 5")
    ann.in_step()
    pictures.take_all_looks(bob, "offline")
    bob.set_network(True)
    took = come_together(ann, bob)
    for person in (ann, bob):
        for text in ("eggs, offline", "coffee, meanwhile", "dark bread"):
            person.shows(text)
        person.shows("bread 2", True)
    print(f"offline: 4 edits of one who had no network and 3 of the other came together {took:.2f} s after it was back")


def check_reload(ann, bob, site):
    """What waits is there after a reload, with no network, with no server and with no proxy, and is sent later."""
    bob.set_network(False)
    bob.add("tea, before a reload")
    bob.in_state("offline", 1)
    bob.window.reload()
    bob.shows("tea, before a reload")
    bob.in_state("offline", 1)
    bob.add("honey, after a reload")
    bob.in_state("offline", 2)
    bob.set_network(True)
    bob.in_step()
    site.kill_server()
    ann.add("salt, without a server")
    ann.in_state("offline", 1)
    ann.window.reload()
    ann.shows("salt, without a server")
    ann.in_state("offline", 1)
    site.kill_proxy()
    ann.window.reload()
    ann.shows("salt, without a server")
    ann.add("pepper, without a proxy")
    ann.in_state("offline", 2)
    site.start_server()
    site.start_proxy()
    took = come_together(ann, bob)
    print(f"reload: what waited was there after reloads without a network, without a server and without a proxy, and was sent {took:.1f} s after they were back")


def check_kills(ann, bob, site, kills=5, each=60):
    """The server is killed and started again while both edit."""
    before = ann.shown()
    ann.begin_adding("a", each, 60)
    bob.begin_adding("b", each, 60)
    for _ in range(kills):
        time.sleep(0.6)
        site.kill_server()
        time.sleep(0.1)
        site.start_server()
    start = time.monotonic()
    for person in (ann, bob):
        for who in "ab":
            person.shows(f"{who} {each}")
    come_together(ann, bob)
    took = time.monotonic() - start
    texts = [text for text, _ in ann.shown()]
    same("the todos after the kills", sorted([text for text, _ in before] + [f"{who} {number + 1}" for who in "ab" for number in range(each)]), sorted(texts))
    for who in "ab":
        same(f"the order of {who}'s todos", [f"{who} {number + 1}" for number in range(each)], [text for text in texts if text.startswith(f"{who} ")])
    print(f"kills: {2 * each} todos were made while the server was killed {kills} times; both windows show each once, {took:.1f} s after the last")


def check_missed(ann, first, second, many=250):
    """A tab that is told nothing of what another does shows it all the same, as it comes to the front or after its next round."""
    for handle in (first, second):
        ann.window.go_to(handle)
        ann.set_network(False)
    ann.in_state("offline", 0)
    for count in (1, many):
        ann.window.go_to(first)
        ann.window.run("BroadcastChannel.prototype.postMessage = () => {}")
        ann.begin_adding(f"untold {count}", count, 5)
        ann.shows(ann.made[-1])
        ann.rename(f"untold {count} 1", f"untold {count} once more")
        ann.shows(f"untold {count} once more")
        expected = ann.shown()
        ann.window.go_to(second)
        ann.window.run("document.dispatchEvent(new Event('visibilitychange'))")
        took = ann.waits(f"the tab catches up with {count}", SHOWN + "return JSON.stringify(texts) === arguments[0];",
                         json.dumps(expected, separators=(",", ":"), ensure_ascii=False))[1]
    for handle in (first, second):
        ann.window.go_to(handle)
        ann.set_network(True)
        ann.in_step()
    print(f"a tab that was told nothing: it showed what was done meanwhile all the same, {many} todos after {took * 1000:.0f} ms")


def check_tabs(ann, bob):
    """Two tabs of one browser have clients of their own, and show the same; what a closed one left is sent by the other."""
    window, first = ann.window, ann.window.tab()
    second = window.new_tab(ann.site.address)
    ann.open_list("Groceries")
    ann.add("from the second tab")
    window.go_to(first)
    ann.shows("from the second tab")
    ann.add("from the first tab")
    bob.shows("from the first tab")
    same("the clients of ann's two tabs", 2, len(ann.kept()["clients"]))
    window.go_to(second)
    ann.shows("from the first tab")
    # both at once
    for handle, name in ((first, "x"), (second, "y")):
        window.go_to(handle)
        ann.begin_adding(name, 20, 20)
    for handle in (first, second):
        window.go_to(handle)
        ann.shows("x 20")
        ann.shows("y 20")
        ann.in_step()
    check_missed(ann, first, second)
    ann.set_network(False)
    ann.add("as the second tab closes")
    ann.window.ask("DELETE", "/window")
    window.go_to(first)
    bob.shows("as the second tab closes")
    come_together(ann, bob)
    print("tabs: two tabs of one browser edited at once as two clients, and what one left as it was closed was sent by the other")


def check_share_taken(ann, bob, pictures):
    """A share that is taken away empties the other's window; a list that is left is gone."""
    ann.window.click("#shares .remove")
    took = bob.waits("no list", "return document.querySelectorAll('#lists li').length === 0 && document.getElementById('list').hidden")[1]
    pictures.take(bob, "share-taken")
    same("what bob's window keeps", [], bob.kept()["keys"])
    ann.share("bob")
    bob.open_list("Groceries")
    bob.window.click("#account")
    pictures.take(bob, "shared-list-and-account")
    bob.window.press("Escape")
    bob.window.click("#leave-list")
    pictures.take(bob, "question")
    bob.window.click("#question-yes")
    bob.waits("no list", "return document.querySelectorAll('#lists li').length === 0")
    ann.waits("no share", "return document.querySelectorAll('#shares li').length === 0")
    ann.share("bob")
    bob.open_list("Groceries")
    come_together(ann, bob)
    print(f"sharing: a share that was taken away had emptied the other window after {took * 1000:.0f} ms, and a list was left")


def check_roles(ann, bob, pictures):
    """A share that lets look alone: the other window shows the list and changes nothing, also of what it did offline."""
    role = "#shares li .role"
    ann.waits("bob may edit", "return document.querySelector(arguments[0])?.textContent === 'may edit'", role)
    bob.set_network(False)
    bob.add("made as it was taken away")
    bob.in_state("offline", 1)
    ann.window.click(role)
    ann.waits("bob may look", "return document.querySelector(arguments[0]).textContent === 'may look'", role)
    ann.in_step()
    bob.set_network(True)
    bob.in_step()
    bob.waits("that it may look alone", """
        const [form, told, check] = ["todo-form", "looks-alone", "todos"].map((id) => document.getElementById(id));
        return form.hidden && !told.hidden && [...check.querySelectorAll(".check")].every((one) => one.disabled);""")
    if any(text == "made as it was taken away" for text, _ in bob.shown()):
        wrong("what bob may only look at has a todo that bob made")
    pictures.take_all_looks(bob, "looks-alone")
    ann.window.run("document.getElementById('share-form').scrollIntoView({ block: 'center' })")
    pictures.take(ann, "role")
    come_together(ann, bob)
    ann.window.click(role)
    ann.waits("bob may edit again", "return document.querySelector(arguments[0]).textContent === 'may edit'", role)
    bob.waits("that it may edit again", "return !document.getElementById('todo-form').hidden")
    bob.add("made as it was given back")
    come_together(ann, bob)
    print("roles: a share that lets look alone showed the list, and what was done offline had no effect")


def check_hidden(ann, bob, pictures):
    """A list that is hidden goes from the other's window alone, and comes back with what was done in it; one that is made meanwhile stays."""
    bob.window.click("#hide-list")
    bob.waits("no list", "return document.querySelectorAll('#lists li').length === 0 && !document.getElementById('some-lists').hidden")
    bob.in_step()
    same("what bob's window keeps", ["extent/bob"], bob.kept()["keys"])
    ann.add("while it is hidden")
    ann.in_step()
    bob.make_list("Chores")
    bob.in_step()
    bob.open_list("Chores")
    same("the lists that bob's window keeps", 1, sum(key.startswith("list/") for key in bob.kept()["keys"]))
    pictures.take_all_looks(bob, "hidden")
    bob.window.click("#show-all")
    bob.open_list("Groceries")
    bob.shows("while it is hidden")
    bob.open_list("Chores")
    bob.window.click("#delete-list")
    bob.window.click("#question-yes")
    bob.open_list("Groceries")
    come_together(ann, bob)
    print("hiding: a list that was hidden came back with what was done in it, and one that was made meanwhile stayed")


def check_undo(ann, bob, pictures):
    """What was deleted is undone with what the other did to it meanwhile, also in another tab; and is deleted where it is not, also after a reload."""
    for text in ("attic 1", "attic 2", "attic 3"):
        ann.add(text)
        bob.shows(text)
    order = [text for text, _ in ann.shown()]
    ann.delete("attic 1", is_final=False)
    ann.offered("attic 1")
    ann.is_gone("attic 1")
    bob.check("attic 1")
    bob.in_step()
    ann.window.press_with("Control", "z")
    ann.shows("attic 1", True)
    same("the order after a deletion was undone", order, [text for text, _ in ann.shown()])
    same("what has the focus", "attic 1", ann.window.run("return document.activeElement.textContent"))
    ann.not_offered()
    ann.make_list("Garage")
    ann.share("bob")
    ann.add("garage 1")
    bob.open_list("Garage")
    bob.shows("garage 1")
    ann.in_step()
    ann.window.click("#delete-list")
    ann.window.click("#question-yes")
    ann.offered("Garage")
    same("what has the focus", "undo", ann.window.run("return document.activeElement.id"))
    pictures.take(ann, "undo")
    bob.add("garage 2")
    bob.in_step()
    first = ann.window.tab()
    second = ann.window.new_tab(ann.site.address)
    ann.offered("Garage")
    ann.window.click("#undo")
    ann.open_list("Garage")
    ann.shows("garage 2")
    ann.window.ask("DELETE", "/window")
    ann.window.go_to(first)
    ann.open_list("Garage")
    come_together(ann, bob)
    same("the todos of a list that came back", ["garage 1", "garage 2"], [text for text, _ in ann.shown()])
    ann.waits("the share that came back", "return document.querySelector('#shares li span')?.textContent === 'bob'")
    for person in (ann, bob):
        person.open_list("Groceries")
    ann.set_network(False)
    ann.delete("attic 2", is_final=False)
    ann.offered("attic 2")
    ann.window.reload()
    ann.offered("attic 2")
    start = time.monotonic()
    ann.not_offered()
    took = time.monotonic() - start
    ann.in_state("offline", 1)
    ann.set_network(True)
    bob.is_gone("attic 2")
    ann.delete("attic 3", is_final=False)
    ann.offered("attic 3")
    ann.window.open("about:blank")
    bob.shows("attic 3")
    ann.window.open(ann.site.address)
    bob.is_gone("attic 3")
    ann.open_list("Garage")
    ann.window.click("#delete-list")
    ann.window.click("#question-yes")
    ann.delete_now("Garage")
    for person in (ann, bob):
        person.open_list("Groceries")
    come_together(ann, bob)
    print(f"undo: a todo and a list came back with what the other did meanwhile, the list by another tab; others went in the end, {took:.1f} s after a reload")


def check_search(ann, pictures):
    """A text is found over all lists, and its list is opened at it; so is what is completed, which can be hidden in a list."""
    window, kept = ann.window, ann.shown()
    ann.make_list("Cellar")
    ann.add("Übermorgen aufräumen")
    ann.shows("Übermorgen aufräumen")
    window.type("#search-text", "üBERM")
    found = """return [...document.querySelectorAll("#found-items a")].map((link) => [...link.children].map((part) => part.textContent));"""
    same("what is found", [["Übermorgen aufräumen", "in Cellar"]], window.run(found))
    pictures.take_all_looks(ann, "search")
    window.run("document.getElementById('search-text').value = ''")
    window.type("#search-text", "GROC")
    same("the list that is found", ["Groceries", "a list"], window.run(found)[0])
    window.run("document.querySelector('#completed').click()")
    ann.waits("what is completed", "return document.getElementById('found-title').textContent === 'Completed'")
    done = [[text, "completed, in Groceries"] for text, is_complete in kept if is_complete]
    same("what is completed", done, window.run(found))
    if not done:
        wrong("nothing is completed")
    text = done[-1][0]
    window.run("document.querySelector('#found-items li:last-child a').click()")
    ann.waits("the list is open at it", "return document.activeElement.textContent === arguments[0] && document.activeElement.matches('.text')", text)
    same("the list's name", "Groceries", window.run("return document.getElementById('list-title').textContent"))
    seen = "return [...document.querySelectorAll('#todos .todo')].filter((todo) => getComputedStyle(todo).display !== 'none').length"
    window.click("#hide-completed")
    same("the todos that are seen", len(kept) - len(done), window.run(seen))
    window.click("#hide-completed")
    same("the todos that are seen", len(kept), window.run(seen))
    window.click("#rename-list")
    ann.waits("why a list has no other name", "return document.getElementById('question').open && document.getElementById('question-text').textContent.includes('new list')")
    window.click("#question-no")
    ann.open_list("Cellar")
    window.click("#delete-list")
    window.click("#question-yes")
    ann.open_list("Groceries")
    ann.in_step()
    print(f"search: a text and a list's name were found over all lists, as were the {len(done)} completed todos, which were hidden and shown")


def check_refusals(ann, bob, site, pictures):
    """A key that is no longer taken, a version that is not served, and a client group that was ended."""
    site.kill_server()
    site.write_accounts({"ann": "new key", "bob": KEYS["bob"]})
    site.start_server()
    ann.add("while the key is refused")
    ann.notice("does not know this key")
    ann.in_state("trouble", 1)
    pictures.take_all_looks(ann, "key-refused")
    ann.window.type("#key-again", "new key", "Enter")
    ann.in_step()
    site.kill_server()
    site.write_accounts(KEYS, schemas=("9",))
    site.start_server()
    bob.add("while the version is refused")
    bob.notice("another version")
    bob.in_state("trouble", 1)
    site.kill_server()
    bob.add("while the group is ended")
    group = bob.kept()["session"]["groupID"]
    site.retire(group)
    site.write_accounts(KEYS)
    site.start_server()
    ann.notice("does not know this key")
    ann.window.type("#key-again", KEYS["ann"], "Enter")
    come_together(ann, bob)
    for text in ("while the key is refused", "while the version is refused", "while the group is ended"):
        ann.shows(text)
    if bob.kept()["session"]["groupID"] == group:
        wrong("bob's window goes on with a group that was ended")
    print("refusals: a key was asked for again, a version was told, and a group that was ended began anew; nothing that waited was lost")


def check_restore(ann, bob, site, pictures):
    """An older copy of the store is brought back: what was done since is gone, and client groups are ended so that windows go on."""
    site.kill_server()
    copies = {path: path.read_bytes() for path in site.folder.glob("lists.db*")}
    site.start_server()
    ann.add("after the copy")
    ann.in_step()
    bob.shows("after the copy")
    site.kill_server()
    for path in site.folder.glob("lists.db*"):
        path.unlink()
    for path, body in copies.items():
        path.write_bytes(body)
    site.start_server()
    bob.waits("after the copy is gone", SHOWN + "return !texts.some(([text]) => text === 'after the copy');")
    ann.made.remove("after the copy")
    ann.add("after the restore")
    ann.notice(ann.kept()["session"]["groupID"])
    ann.in_state("trouble", 1)
    pictures.take(ann, "forgotten")
    site.kill_server()
    groups = site.groups()
    for group in groups:
        site.retire(group)
    site.start_server()
    came = come_together(ann, bob)
    ann.shows("after the restore")
    print(f"restore: an older copy of the store was told by an id from the future; {len(groups)} groups were ended, and the windows came together {came:.1f} s later")


def check_wrong_name(driver, site):
    """A name that is not the key's is told."""
    eve = Person(driver, site, "eve")
    eve.window.type("#sign-in-user", "eve")
    eve.window.type("#sign-in-key", KEYS["ann"], "Enter")
    eve.notice("This key is not eve’s")
    eve.window.close()
    print("a name that is not the key's was told")


def check_views(site, *people):
    """Each window keeps and shows just what a pull from nothing gives."""
    for person in people:
        rows, kept = site.rows(person.user), person.kept()
        same(f"the rows that {person.user}'s window keeps", rows, dict(zip(kept["keys"], kept["values"])))
        same(f"what waits in {person.user}'s window", [], kept["pending"])
        todos = sorted((row for key, row in rows.items() if key.startswith("todo/")), key=lambda row: (row["sort"], row["id"]))
        same(f"the todos that {person.user}'s window shows", [[row["text"], row["complete"]] for row in todos], person.shown())
    print(f"views: both windows show the {len(todos)} todos that a pull from nothing gives")


def check_sign_out(person):
    """Who signs out leaves nothing in the browser."""
    person.window.click("#account")
    person.window.click("#sign-out")
    person.window.click("#question-yes")
    person.waits("the sign-in", "return !document.getElementById('sign-in').hidden")
    kept = person.kept()
    same(f"what {person.user}'s window keeps", (None, [], [], []), tuple(kept.get(name) for name in ("session", "keys", "pending", "clients")))
    print("who signed out left nothing in the browser")


def check_messages(*people):
    """No script has failed. That the network did is in the messages too."""
    for person in people:
        same(f"what scripts of {person.user}'s page say", [], [message["message"] for message in person.window.messages() if message["source"] == "javascript"])


def check_book(program, store, *people):
    """Each todo that a window made stands once in the book, and the ids of each client are 1, 2, 3 and so on."""
    sound = subprocess.run([program, "check", str(store)], stdout=subprocess.PIPE)
    with contextlib.closing(sqlite3.connect(store)) as connection:
        entries = [json.loads(body) for body, in connection.execute("SELECT body FROM cell WHERE shelf = 1 ORDER BY k")]
    same("what check says", (0, f"ok {len(entries)}\n".encode()), (sound.returncode, sound.stdout))
    acts = [entry for entry in entries if entry[0] == "act"]
    ids = {}
    for _, _, _, client, number, _ in acts:
        ids.setdefault(client, []).append(number)
    for client, numbers in ids.items():
        same(f"the ids of the client {client}", list(range(1, len(numbers) + 1)), numbers)
    for person in people:
        made = [call[3] for _, user, _, _, _, call in acts if user == person.user and call[0] == "createTodo"]
        same(f"the todos that {person.user} made, in the book", sorted(person.made), sorted(made))
    print(f"book: the {sum(len(person.made) for person in people)} todos that were made stand once each among {len(entries)} entries of {len(ids)} clients")


def check_thousands(program, folder, driver):
    """A window over a store of its own, with thousands of todos."""
    folder.mkdir()
    with contextlib.ExitStack() as ending:
        site = Site(program, folder, is_kept=False)
        ending.callback(site.stop)
        ann = Person(driver, site, "ann")
        ending.callback(ann.window.close)
        check_long_list(ann, site)
        check_messages(ann)


def main():
    if len(sys.argv) not in (2, 3):
        sys.exit("usage: checks/page.py PROGRAM [PICTURES]")
    program = os.path.abspath(sys.argv[1])
    if missing_tools("chromium", "chromedriver"):
        return
    pictures = Pictures(pathlib.Path(sys.argv[2] if len(sys.argv) > 2 else tempfile.mkdtemp(prefix="rv-pictures-")))
    with contextlib.ExitStack() as ending:
        folder = pathlib.Path(ending.enter_context(tempfile.TemporaryDirectory(ignore_cleanup_errors=True)))
        site = Site(program, folder)
        ending.callback(site.stop)
        driver = Driver(free_port())
        ending.callback(driver.stop)
        driver.wait()
        check_thousands(program, folder / "thousands", driver)
        ann, bob = (Person(driver, site, user) for user in KEYS)
        for person in (ann, bob):
            ending.callback(person.window.close)
        check_following(ann, bob, pictures)
        check_order(ann, bob)
        pictures.take_all_looks(ann, "list")
        check_offline(ann, bob, pictures)
        check_reload(ann, bob, site)
        check_kills(ann, bob, site)
        check_tabs(ann, bob)
        check_share_taken(ann, bob, pictures)
        check_roles(ann, bob, pictures)
        check_hidden(ann, bob, pictures)
        check_undo(ann, bob, pictures)
        check_search(ann, pictures)
        check_keys(ann)
        ann.open_list("Groceries")
        check_refusals(ann, bob, site, pictures)
        check_restore(ann, bob, site, pictures)
        check_wrong_name(driver, site)
        check_views(site, ann, bob)
        check_sign_out(bob)
        check_messages(ann, bob)
        site.kill_server()
        check_book(program, site.store, ann, bob)
    print(f"the page: two windows followed each other through all of this; {pictures.count} pictures in {pictures.folder}")


if __name__ == "__main__":
    main()
