#!/usr/bin/env python3
"""Plays the commands that README.md and docs/ show: checks/documents.py PROGRAM

PROGRAM is the program `rv` as it was built. Each document is played in a fresh folder and in a net of its own, where all ports are free,
its sections one after the other, each in one shell, every command as it stands but for four things: `/etc`, `/usr/local` and `/var/lib`
are folders of that folder; `rt try` runs PROGRAM; `systemctl` starts and ends what the unit of examples/deploy says; and `journalctl`
writes the line of HAProxy's log that the document shows, with 409. What is played are indented and fenced blocks of commands, and between
backticks what begins as BEGINNINGS say and has no word in capitals that stands for a value.

What comes must be what the document shows: a block after a text that ends with `writes` or `write` is all that the commands before it
wrote, in which a word in capitals is a number; and behind a command between backticks `says` or `writes` has what it wrote, where the path
of a file stands for what the file holds, and `with status N` its status, which is 0 where nothing is said. A command that can't be played
stands in UNPLAYED with the reason, and a block that is neither a command nor shown stands in TEXTS. Ends with status 1 at the first
difference, and where a row of these tables is not used. As root; needs curl, sqlite3 and openssl.
"""
import fcntl
import glob
import os
import re
import shutil
import socket
import struct
import subprocess
import sys
import tempfile
import time

TOP = os.path.dirname(os.path.dirname(os.path.abspath(__file__)))
LATE = 60
BEGINNINGS = ("rv", "crates/rv/out/rv", "rt try", "curl", "python3", "sqlite3", "systemctl")
# What a block of commands begins with, besides.
OTHERS = ("(cd", "cd", "rt", "openssl", "install", "journalctl", "for")
OPERATING, PROTOCOL, README = "docs/operating.md", "docs/protocol.md", "README.md"

NO_HAPROXY = "HAProxy, which checks/proxy.py and checks/page.py start with the same configuration"
UNPLAYED = {
    (README, "rt ci"): "the gate, which takes an hour",
    (OPERATING, "RV_BY_HAND=1 RV_LOG=stdout RV_TLS_PORT=8443 RV_CERTIFICATE=~/rv.pem RV_PAGE=$PWD/examples/web "
     "haproxy -f examples/deploy/haproxy.cfg &"): NO_HAPROXY,
    (OPERATING, "systemctl reload haproxy"): NO_HAPROXY,
    ("docs/contributing.md", 'python3 checks/case.py trial_serving "a list that ann shares with bob, and not with cat"'):
        "a program of cases, which this check is not given",
    (OPERATING, "for name in north south; do curl -sk --resolve $name.example:443:127.0.0.1 -H 'Authorization: k-ann' "
     "-d @examples/push.json https://$name.example/push; echo; done"): "TLS, by HAProxy",
    (OPERATING, "systemctl enable --now rv-standby@lists rv-ship@lists.timer"): "a timer; what the two units run is played by hand before",
}
# Blocks that are no commands, and that no command before them writes.
TEXTS = {
    ("docs/contributing.md", "rv, rv_laws"): "the layers",
    (PROTOCOL, "list,text,complete"): "the first record of what an import reads",
    (OPERATING, "127.0.0.1 ["): "a line of HAProxy's log, from which `journalctl` here makes its own",
}
# Shown texts, as they begin, that are the form of what a command writes, whose words have no value there: the command with values.
FORMS = {
    (PROTOCOL, "records N acted A skipped S"): "rv import memory ann home < ~/todos.csv",
    (PROTOCOL, "CREATE TABLE IF NOT EXISTS cell"): "rv feed ~/made.db && sqlite3 ~/made.db 'SELECT sql FROM sqlite_schema'",
    (PROTOCOL, "requests N acted A skipped S looks L same M entries E rows R"): "rv make 5 1000",
}
# In which folder a section begins, where it is not the top of the tree.
BEGINS = {(OPERATING, "Backup"): "/var/lib/private/rv/lists"}
# What stands before a command, as the document says that it does.
PREPARED = {
    (OPERATING, "rv import $PWD/lists.db ann home < ~/todos.csv"):
        "rv feed $PWD/lists.db < $ROOM/top/examples/two-clients.in > $ROOM/fed",
    # the group of the line that `journalctl` writes has come after the copy, and pulls
    (OPERATING, "journalctl"): "sed s/g1/gbusy-7/ $ROOM/top/examples/pull.json | curl -sS -H 'Authorization: k-ann' -d @- 127.0.0.1:8080/pull",
    # a book in which the ninth act of the client stands at the place that is shown
    (OPERATING, 'sqlite3 copy.db "SELECT'):
        "for n in $(seq 980); do c=idle; [ $n -le 971 ] || { c=busy-7 n=$((n - 971)); }; "
        """echo '{"user":"ann","push":{"pushVersion":1,"clientGroupID":"g'$c'","profileID":"p","schemaVersion":"","mutations":"""
        """[{"clientID":"c'$c'","id":'$n',"name":"paint","args":null}]}}'; done | rv feed copy.db > $ROOM/fed""",
}

SYSTEMCTL = r"""#!/bin/bash
# Starts, ends and signals what the unit of examples/deploy says of rv@NAME; of HAProxy, and of units as a whole, there is nothing to do.
[ "$1" != daemon-reload ] && [ "${!#}" != haproxy ] || exit 0
name=${!#}; name=${name#rv@}; at=$ROOM/$name.pid
end() { kill -KILL $(cat $at) && while grep -q '^State:.[^ZX]' /proc/$(cat $at)/status 2> $ROOM/null; do sleep 0.02; done; rm $at; }
begin() {
    set -a; . $ROOM/etc/rv/$name.env; export CREDENTIALS_DIRECTORY=$ROOM/credentials/$name; set +a
    mkdir -p $CREDENTIALS_DIRECTORY $ROOM/var/lib/rv/$name; cp $ROOM/etc/rv/$name.toml $CREDENTIALS_DIRECTORY/accounts.toml
    unit=$(sed -z 's/\\\n//g' "$ROOM/etc/systemd/system/rv@.service" | sed -n "s/^ExecStart=//p")
    unit=$(sed "s/%i/$name/g; s|/usr/local/|$ROOM&|; s|/var/lib/|$ROOM&|" <<< "$unit")
    eval "exec setsid $unit" > $ROOM/$name.out 2>&1 & echo $! > $at
    for i in $(seq 600); do (: < /dev/tcp/127.0.0.1/$RV_PORT) 2> $ROOM/null && return; sleep 0.1; done; exit 1
}
case $1 in
    start | enable) [ -e $at ] || begin ;;
    stop) end ;;
    restart) end; begin ;;
    kill) kill -$3 $(cat $at) ;;
    *) exit 1 ;;
esac
"""
RT = """#!/bin/bash
# `rt try [--seconds N] -- WORDS`, which runs the program in a folder of its own.
[ "$1" = try ] || exit 1
while [ "$1" != -- ]; do shift; done
shift; cd "$(mktemp -d -p "$ROOM")" && exec "$ROOM/top/crates/rv/out/rv" "$@"
"""


class Command:
    """A command of a document: its line, its text, what is said of it behind it, and its status."""

    def __init__(self, line, text, said=None, status=0):
        self.line, self.text, self.said, self.status = line, text, said, status


class Shown:
    """A block that shows what the commands before it write."""

    def __init__(self, line, text):
        self.line, self.text = line, text


# What of these tables was met in the document.
met = set()


def wrong(document, line, command, expected, got):
    print(f"{document}:{line}: {command}\nexpected: {expected}\ngot: {got}")
    sys.exit(1)


def blocks(text):
    """The paragraphs of a document, each with its first line's number, and whether it is indented or fenced as commands and shown texts are."""
    found, fenced, fresh = [], False, True
    for number, line in enumerate(text.split("\n"), 1):
        if line.lstrip().startswith("```"):
            fenced, fresh = not fenced, True
            continue
        if not line.strip():
            fresh = True
            continue
        code = fenced or line.startswith("    ")
        if fresh or code != found[-1][1]:
            found.append((number, code, []))
        found[-1][2].append(line.strip() if code else line)
        fresh = False
    return found


def is_form(text):
    """Whether a word of the command stands for a value."""
    return not text.startswith("sqlite3") and re.search(r"(?<![\w$])[A-Z]+(?![\w=])|\.\.", text.split("'")[0]) is not None


def named_only(text):
    return len(text.split()) < 3 and not text.startswith("rt try -- ")


def inline(document, number, line, names):
    """The commands between backticks of a line."""
    for match in re.finditer(r"`([^`]+)`", line):
        text, rest = match[1], line[match.end():]
        if not any(text.startswith(word + " ") for word in BEGINNINGS):
            continue
        if text.startswith("rv ") and (named_only(text) or is_form(text)):
            names += [(document, number, text, word) for word in text.split()[1].split("|")]
        if named_only(text) or is_form(text):
            continue
        said = re.match(r",? (?:says|writes) `([^`]+)`", rest)
        status = re.match(r"[^.`]*(?:`[^`]*`[^.`]*)?\bwith status (\d+)", rest)
        yield Command(number, text, said and said[1], int(status[1]) if status else 0)


def meets(table, document, text):
    """The key of a table's row for a text, which begins so."""
    for where, start in table:
        if where == document and text.startswith(start):
            met.add((where, start))
            return where, start
    return None


def sections(document, text, names):
    """The sections of a document, each with its title and what is to be played or compared in it."""
    found, title, section, before = [], "", [], ""
    for number, code, lines in blocks(text):
        if not code:
            for at, line in enumerate(lines, number):
                if line.startswith("#"):
                    found.append((title, section))
                    title, section = line.lstrip("# "), []
                section += inline(document, at, line, names)
            before = lines[-1]
            continue
        if any(lines[0].startswith(word + " ") for word in BEGINNINGS + OTHERS):
            section += [Command(at, re.sub(r" {2,}# .*", "", line)) for at, line in enumerate(lines, number)]
        elif re.search(r"\bwrites?$", before) or meets(FORMS, document, lines[0]):
            section.append(Shown(number, "\n".join(lines)))
        elif not meets(TEXTS, document, lines[0]):
            wrong(document, number, lines[0], "a command, or what one writes, or a block of TEXTS", "none of these")
    return found + [(title, section)]


def pattern(shown):
    """What is shown, as a pattern: a word in capitals is a number, or itself."""
    return re.sub(r"\b[A-Z]+\b", lambda word: f"(?:[0-9]+|{word[0]})", re.escape(shown))


def sockets():
    """The sockets of this net that listen or are connected."""
    with open("/proc/net/tcp", encoding="ascii") as file:
        return {line.split()[9] for line in file.readlines()[1:] if line.split()[3] in ("0A", "01")}


class Shell:
    """A shell in which the commands of a section run one after the other."""
    runs = 0

    def __init__(self, room, folder):
        self.room, self.count = room, None
        env = dict(os.environ, HOME=f"{room}/home", ROOM=room, PATH=f"{room}/bin:{room}/usr/local/bin:{os.environ['PATH']}", LC_ALL="C.UTF-8")
        self.bash = subprocess.Popen(["bash"], stdin=subprocess.PIPE, stdout=subprocess.DEVNULL, stderr=subprocess.DEVNULL, cwd=folder, env=env,
                                     text=True)
        self.bash.stdin.write("set -m\n")

    def path(self, what):
        return f"{self.room}/said/{self.count}.{what}"

    def read(self, what):
        with open(self.path(what), encoding="utf-8", errors="replace") as file:
            return file.read()

    def run(self, text):
        """The status of a command, what it wrote, and what it wrote to its second output."""
        Shell.runs += 1
        self.count = Shell.runs
        text = re.sub(r"(?<![\w.~])/(etc|usr/local|var/lib)/", self.room + r"/\1/", text)
        before = sockets()
        self.bash.stdin.write(f"{{ {text}\n}} > {self.path('out')} 2> {self.path('err')} < {self.room}/null\n"
                              f"echo $? > {self.path('is')}; mv {self.path('is')} {self.path('status')}\n")
        self.bash.stdin.flush()
        end = time.monotonic() + LATE
        while not os.path.exists(self.path("status")):
            if time.monotonic() > end or self.bash.poll() is not None:
                return None, self.read("out"), self.read("err")
            time.sleep(0.01)
        if text.endswith("&"):
            # what runs beside the shell is ready once it has a socket
            while sockets() <= before and time.monotonic() < end:
                time.sleep(0.05)
            if sockets() <= before:
                return None, self.read("out"), self.read("err")
        return int(self.read("status")), self.read("out"), self.read("err")

    def end(self):
        """Ends the jobs that run beside the shell, and waits for them."""
        self.run("for job in $(jobs -p); do kill -KILL -- -$job; done; wait")
        self.bash.stdin.close()
        self.bash.wait(LATE)


def furnish(room, program, log_line):
    """The folder of a document: the tree's examples and its program, the tools that are played, and a home."""
    for folder in ("top/crates/rv/out", "home", "bin", "said", "credentials", "etc/rv", "etc/haproxy", "etc/default", "etc/systemd/system",
                   "usr/local/bin", "usr/local/share", "var/lib/private/rv/lists"):
        os.makedirs(f"{room}/{folder}")
    os.symlink("private/rv", f"{room}/var/lib/rv")
    open(f"{room}/null", "w", encoding="ascii").close()
    shutil.copytree(f"{TOP}/examples", f"{room}/top/examples")
    shutil.copy(program, f"{room}/top/crates/rv/out/rv")
    for name, text in (("systemctl", SYSTEMCTL), ("rt", RT), ("journalctl", f"#!/bin/bash\ncat {room}/journal\n")):
        with open(f"{room}/bin/{name}", "w", encoding="utf-8") as file:
            file.write(text)
        os.chmod(f"{room}/bin/{name}", 0o755)
    # where a document installs nothing the program is there by its name
    os.symlink(f"{room}/top/crates/rv/out/rv", f"{room}/bin/rv")
    with open(f"{room}/journal", "w", encoding="utf-8") as file:
        file.write(log_line.replace(" 200 ", " 409 ") + "\n")
    with open(f"{room}/home/todos.csv", "w", encoding="utf-8") as file:
        file.write("list,text,complete\nl1,bread,false\n")


def play_command(document, shell, command, counts):
    """Plays one command and compares its status, and what is said of it behind it."""
    prepared = meets(PREPARED, document, command.text)
    if prepared is not None:
        status, out, err = shell.run(PREPARED[prepared])
        if status != 0:
            wrong(document, command.line, f"what stands before it: {PREPARED[prepared]}", "status 0", f"status {status}: {out}{err}")
    status, out, err = shell.run(command.text)
    if status != command.status:
        got = f"neither an end nor a socket after {LATE} seconds" if status is None else f"status {status}"
        wrong(document, command.line, command.text, f"status {command.status}", f"{got}: {out}{err}")
    if command.said is not None and os.path.isfile(f"{TOP}/{command.said}"):
        with open(f"{TOP}/{command.said}", encoding="utf-8") as file:
            expected = file.read()
        if out != expected:
            wrong(document, command.line, command.text, expected, out)
    elif command.said is not None and re.search(pattern(command.said), out + err) is None:
        wrong(document, command.line, command.text, command.said, out + err)
    counts["played"] += 1
    counts["compared"] += command.said is not None
    return out


def play(document, program):
    """Plays a document, and prints how many commands were played and how many outputs compared."""
    with open(f"{TOP}/{document}", encoding="utf-8") as file:
        text = file.read()
    names, counts, unplayed = [], {"played": 0, "compared": 0}, 0
    parts = sections(document, text, names)
    usage = subprocess.run([program], stdout=subprocess.PIPE, stderr=subprocess.STDOUT, text=True, check=False).stdout.strip()
    known = usage.removeprefix("usage: rv ").split("|")
    for where, line, text_named, word in names:
        if word not in known:
            wrong(where, line, text_named, f"one of {', '.join(known)}", word)
    log_line = next((line.strip() for line in text.split("\n") if line.startswith("    127.0.0.1 [")), "")
    with tempfile.TemporaryDirectory(ignore_cleanup_errors=True) as room:
        furnish(room, program, log_line)
        for title, section in parts:
            if not section:
                continue
            begins = meets(BEGINS, document, title)
            shell, wrote, last = Shell(room, room + BEGINS.get(begins, "/top")), "", None
            for what in section:
                if isinstance(what, Shown):
                    form = meets(FORMS, document, what.text)
                    if form is not None:
                        wrote, last = play_command(document, shell, Command(what.line, FORMS[form]), counts), FORMS[form]
                    if re.fullmatch(pattern(what.text), wrote.strip()) is None:
                        wrong(document, what.line, last, what.text, wrote.strip())
                    counts["compared"] += 1
                    wrote = ""
                elif (document, what.text) in UNPLAYED:
                    met.add((document, what.text))
                    unplayed += 1
                else:
                    if last is None or what.line > last_line + 1:
                        wrote = ""
                    wrote, last = wrote + play_command(document, shell, what, counts), what.text
                last_line = what.line
            shell.end()
    for where, stale in (*UNPLAYED, *TEXTS, *FORMS, *BEGINS, *PREPARED):
        if where == document and (where, stale) not in met:
            wrong(document, 0, stale, "that it stands there", "a row of this check that is not used")
    if counts["played"] or unplayed:
        print(f"{document}: {counts['played']} commands played, {counts['compared']} outputs compared, {unplayed} not to be played", flush=True)


def main():
    if len(sys.argv) == 4 and sys.argv[1] == "--within":
        with socket.socket() as some:
            # the loopback of a new net is down
            fcntl.ioctl(some, 0x8914, struct.pack("16sh14x", b"lo", 0x41))
        play(sys.argv[2], sys.argv[3])
        return
    if len(sys.argv) != 2:
        sys.exit(__doc__)
    program, said = os.path.abspath(sys.argv[1]), []
    for document in [README] + sorted(os.path.relpath(path, TOP) for path in glob.glob(f"{TOP}/docs/*.md")):
        within = ["unshare", "--net", "--pid", "--fork", "--kill-child", "--mount-proc", sys.executable, os.path.abspath(__file__), "--within"]
        run = subprocess.run([*within, document, program], stdout=subprocess.PIPE, text=True, check=False)
        print(run.stdout, end="", flush=True)
        if run.returncode != 0:
            sys.exit(1)
        said += run.stdout.splitlines()
    counts = [[int(number) for number in re.findall(r"(?<= )\d+", line.split(":", 1)[1])] for line in said]
    print("documents: {} commands played, {} outputs compared, {} not to be played".format(*map(sum, zip(*counts))))


main()
