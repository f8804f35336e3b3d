"""The program behind HAProxy with examples/deploy/haproxy.cfg, over TLS, for checks/page.py and checks/proxy.py."""
import base64
import contextlib
import hashlib
import http.client
import json
import os
import pathlib
import shutil
import sqlite3
import ssl
import subprocess

from links import LATE, free_port, same, wrong

TOP = pathlib.Path(__file__).resolve().parent.parent
WORKERS, POKES = 4, 16
KEYS = {"ann": "k-ann", "bob": "Bearer k-bob"}


def missing_tools(*more):
    """Whether one of the programs that are needed is not installed; says so."""
    missing = [tool for tool in ("haproxy", "openssl", *more) if shutil.which(tool) is None]
    if missing:
        print(f"nothing was checked: not installed: {', '.join(missing)}")
    return bool(missing)


def asked(connection, path, user, body):
    """The status and the body that a request is answered with."""
    connection.request("POST", f"/{path}", json.dumps({"profileID": "check", "schemaVersion": "", **body}), {"Authorization": KEYS[user]})
    answer = connection.getresponse()
    return answer.status, json.load(answer)


class Site:
    """The program over a store in a file of this folder, or one in memory, behind HAProxy."""

    def __init__(self, program, folder, is_kept=True):
        self.program, self.folder, self.store = program, folder, folder / "lists.db" if is_kept else "memory"
        self.port, self.poke_port, self.tls_port = free_port(), free_port(), free_port()
        self.address = f"https://localhost:{self.tls_port}/"
        self.server, self.accounts = None, folder / "accounts.toml"
        self.write_accounts(KEYS)
        self.make_certificate()
        self.start_server()
        self.start_proxy()

    def start_proxy(self):
        log = open(self.folder / "haproxy.log", "ab")
        environment = {"RV_TLS_PORT": self.tls_port, "RV_CERTIFICATE": self.folder / "rv.pem", "RV_PAGE": TOP / "examples/web", "RV_PORT": self.port,
                       "RV_WORKERS": WORKERS, "RV_POKE_PORT": self.poke_port, "RV_POKES": POKES, "RV_LOG": "stdout", "RV_BY_HAND": 1}
        self.proxy = subprocess.Popen(["haproxy", "-f", str(TOP / "examples/deploy/haproxy.cfg")], stdin=subprocess.DEVNULL, stdout=log, stderr=log,
                                      env={**os.environ, **{name: str(value) for name, value in environment.items()}})

    def write_accounts(self, keys, schemas=("", "1", "2")):
        accounts = "".join(f"[[account]]\nkey = {json.dumps(key)}\nuser = {json.dumps(user)}\n" for user, key in keys.items())
        self.accounts.write_text(f"schemas = {json.dumps(schemas)}\n{accounts}")

    def make_certificate(self):
        key, certificate = self.folder / "key.pem", self.folder / "certificate.pem"
        subprocess.run(["openssl", "req", "-x509", "-newkey", "rsa:2048", "-nodes", "-days", "2", "-subj", "/CN=localhost", "-addext",
                        "subjectAltName=DNS:localhost", "-keyout", str(key), "-out", str(certificate)], check=True, stderr=subprocess.DEVNULL)
        (self.folder / "rv.pem").write_text(certificate.read_text() + key.read_text())
        public = subprocess.run(["openssl", "pkey", "-in", str(key), "-pubout", "-outform", "DER"], check=True, stdout=subprocess.PIPE).stdout
        self.trusted = base64.b64encode(hashlib.sha256(public).digest()).decode()

    def start_server(self):
        words = [self.program, "serve", str(self.store), "--accounts", str(self.accounts), "--port", str(self.port), "--workers", str(WORKERS),
                 "--connections", "1000000", "--poke-port", str(self.poke_port), "--pokes", str(POKES)]
        self.server = subprocess.Popen(words, stdin=subprocess.DEVNULL, stdout=subprocess.DEVNULL, stderr=subprocess.DEVNULL)

    def kill_server(self):
        self.server.kill()
        self.server.wait()

    def kill_proxy(self):
        self.proxy.kill()
        self.proxy.wait()

    def retire(self, group):
        run = subprocess.run([self.program, "retire", str(self.store), group], stdout=subprocess.PIPE)
        if run.returncode != 0 or not run.stdout.startswith(b"200 "):
            wrong(f"retire ended with status {run.returncode} and said {run.stdout!r}")

    def groups(self):
        """The client groups of the store that are not retired."""
        with contextlib.closing(sqlite3.connect(self.store)) as connection:
            return [key.decode() for key, body in connection.execute("SELECT k, body FROM cell WHERE shelf = 4") if not json.loads(body)[2]]

    def rows(self, user):
        """What a pull from nothing of a new group gives, through the proxy."""
        body = {"pullVersion": 1, "clientGroupID": f"check-{user}", "cookie": None}
        status, answer = asked(self.connection(), "pull", user, body)
        same("a pull's status", 200, status)
        return {change["key"]: change["value"] for change in answer["patch"] if change["op"] == "put"}

    def connection(self):
        """A connection to the proxy, over TLS."""
        context = ssl.create_default_context(cafile=self.folder / "certificate.pem")
        return http.client.HTTPSConnection("localhost", self.tls_port, context=context, timeout=LATE)

    def stop(self):
        self.kill_server()
        self.kill_proxy()
