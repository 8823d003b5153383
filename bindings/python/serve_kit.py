"""For the tests of `yadvorkhul serve`: servers on this machine alone, and clients that sign in as a browser does."""

import http.client
import json
import logging
import os
import re
import shutil
import socket
import subprocess
import sys
import tempfile
import threading
import time
import urllib.parse

from yadvorkhul import Role
from yadvorkhul.serve import people as people_module
from yadvorkhul.serve.app import make_app, make_server
from yadvorkhul.serve.cases import case_of
from yadvorkhul.serve.journal import create, open_journal
from yadvorkhul.serve.people import People
from yadvorkhul.serve.shared import SharedCase

HERE = os.path.dirname(os.path.abspath(__file__))
SEASON = os.path.join(HERE, "..", "..", "examples", "season", "season.json")
A = dict(costs=[[2, 6], [5, 3], [1, 4]], supplies=[3, 3, 1], demands=[3, 2], table=[99, 20, 24, 20])
WORD = "a good long word"
NAMES = {"anna": Role.PLANNER, "paul": Role.PLANT, "dora": Role.DEPOT, "rita": Role.READER}


def season() -> dict:
    with open(SEASON, encoding="utf-8") as stream:
        return json.load(stream)


def free_port() -> int:
    with socket.socket() as one:
        one.bind(("127.0.0.1", 0))
        return one.getsockname()[1]


_hashes = {}


def make_people(path: str) -> People:
    """The four people of the tests. Their one word is hashed once only."""
    if not _hashes:
        _hashes[WORD] = people_module.generate_password_hash(WORD, people_module.METHOD)
    entries = {name: people_module.Entry(name, role, _hashes[WORD], False, "2026-01-01T00:00:00Z") for name, role in NAMES.items()}
    people_module._write(path, entries)
    return People(path)


class Running:
    """A server in this process, for a case or for a journal that is there."""

    def __init__(self, case=None, journal=None, proxy=""):
        self.folder = tempfile.mkdtemp(prefix="yadvorkhul-serve-")
        self.path = journal or os.path.join(self.folder, "case.journal")
        opened = open_journal(self.path) if journal else create(self.path, {"do": "enter", "user": "", "case": case_of(case)})
        self.journal, self.port = opened.journal, free_port()
        self.people = make_people(os.path.join(self.folder, "people.json"))
        self.shared = SharedCase(opened.journal, opened.records)
        self.app = make_app(self.shared, self.people, self.port, proxy)
        self.server = make_server(self.app, self.port, proxy)
        logging.getLogger("yadvorkhul").handlers = [logging.NullHandler()]
        self.clients = []
        self.thread = threading.Thread(target=self._serve, daemon=True)
        self.thread.start()

    def _serve(self):
        try:
            self.server.run()
        except OSError:  # it was closed under its hands
            pass

    def close(self):
        for client in self.clients:
            client.connection.close()
        self.server.task_dispatcher.shutdown()
        self.server.close()
        self.thread.join(5)
        self.journal.close()
        shutil.rmtree(self.folder, ignore_errors=True)

    def client(self, name: str) -> "Client":
        self.clients.append(Client(self.port, name))
        return self.clients[-1]


class Process:
    """A server in a process of its own, which can be killed."""

    def __init__(self, folder: str, files=(), port=None):
        self.folder, self.port = folder, port or free_port()
        self.log = open(os.path.join(folder, "log"), "ab")
        words = [sys.executable, "-m", "yadvorkhul", "serve", *files, "--port", str(self.port)]
        words += ["--journal", os.path.join(folder, "case.journal"), "--users", os.path.join(folder, "people.json")]
        self.process = subprocess.Popen(words, cwd=HERE, stdout=self.log, stderr=self.log)
        self._wait()

    def _wait(self):
        for _ in range(600):
            if self.process.poll() is not None:
                raise RuntimeError("the server did not start: " + self.said())
            with socket.socket() as one:
                if one.connect_ex(("127.0.0.1", self.port)) == 0:
                    return
            time.sleep(0.05)
        raise RuntimeError("the server does not answer")

    def said(self) -> str:
        with open(os.path.join(self.folder, "log"), encoding="utf-8") as stream:
            return stream.read()

    def kill(self):
        """As the power goes."""
        self.process.kill()
        self.process.wait()
        self.log.close()

    def stop(self):
        self.process.terminate()
        self.process.wait()
        self.log.close()


class Answer:
    def __init__(self, status, headers, body):
        self.status, self.headers, self.body = status, headers, body

    @property
    def told(self) -> dict:
        return json.loads(self.body)

    def __repr__(self):
        return f"{self.status} {self.body[:200]!r}"


class Client:
    """Signs in through the form, keeps its cookies, and sends the token and the origin with each write."""

    def __init__(self, port: int, name: str = "", word: str = WORD):
        self.port, self.name, self.cookies, self.token = port, name, {}, ""
        self.connection = http.client.HTTPConnection("127.0.0.1", port, timeout=60)
        if name:
            answer = self.sign_in(name, word)
            if answer.status != 303:
                raise RuntimeError(f"{name} did not get in: {answer}")
            self.load_token()

    def sign_in(self, name: str, word: str) -> Answer:
        return self.form("/sign-in", {"name": name, "word": word, "token": self.form_token("/sign-in")})

    def form_token(self, path: str) -> str:
        return re.search(r'name="token" value="([^"]+)"', self.get(path).body.decode()).group(1)

    def load_token(self):
        self.token = re.search(r'name="token" content="([^"]+)"', self.get("/").body.decode()).group(1)

    def form(self, path: str, fields: dict, **headers) -> Answer:
        return self.ask("POST", path, urllib.parse.urlencode(fields).encode(), {"Content-Type": "application/x-www-form-urlencoded", **headers})

    def get(self, path: str, **headers) -> Answer:
        return self.ask("GET", path, None, headers)

    def post(self, path: str, told, **headers) -> Answer:
        data = told if isinstance(told, bytes) else json.dumps(told).encode()
        return self.ask("POST", path, data, {"Content-Type": "application/json", "X-Token": self.token, **headers})

    def do(self, *calls, **more) -> Answer:
        return self.post("/do", {"calls": [list(call) for call in calls], **more})

    def state(self) -> dict:
        return self.get("/state").told

    def ask(self, method: str, path: str, data, headers: dict) -> Answer:
        sent = {"Host": f"127.0.0.1:{self.port}", "Origin": f"http://127.0.0.1:{self.port}"}
        if self.cookies:
            sent["Cookie"] = "; ".join(f"{name}={value}" for name, value in self.cookies.items())
        sent.update({name.replace("_", "-"): value for name, value in headers.items()})
        sent = {name: value for name, value in sent.items() if value is not None}
        self.connection.putrequest(method, path, skip_host=True, skip_accept_encoding=True)
        for name, value in sent.items():
            self.connection.putheader(name, value)
        if data is not None:
            self.connection.putheader("Content-Length", str(len(data)))
        self.connection.endheaders(data)
        response = self.connection.getresponse()
        body = response.read()
        for name, value in response.getheaders():
            if name.lower() == "set-cookie":
                key, _, rest = value.partition("=")
                self.cookies[key] = rest.split(";")[0]
        return Answer(response.status, response.getheaders(), body)
