"""The server of `tools/studio`: requests of this machine's browser alone, at an address that nobody else knows."""
import hmac
import http.server
import json
import os
import secrets

from page import joined

from .examples import examples
from .programs import Bounds, Run, commands

HERE = os.path.dirname(os.path.abspath(__file__))
MOST = 4 << 20  # bytes of a request
PATIENCE = 10  # seconds until a process that was ended is given up
POLICY = (
    "default-src 'none'; script-src 'unsafe-inline'; style-src 'unsafe-inline'; connect-src 'self'; frame-src 'self'; "
    "frame-ancestors 'self'; base-uri 'none'; form-action 'none'"
)
HEADERS = {
    "Content-Security-Policy": POLICY,
    "X-Content-Type-Options": "nosniff",
    "Referrer-Policy": "no-referrer",
    "Cache-Control": "no-store",
    "Cross-Origin-Resource-Policy": "same-origin",
    "Cross-Origin-Opener-Policy": "same-origin",
}


def read(name):
    with open(os.path.join(HERE, name), encoding="utf-8") as it:
        return it.read()


def studio_page():
    """The page in one piece."""
    given = {"EXAMPLES": examples(), "KINDS": sorted(commands())}
    tables = [f"const {name} = {json.dumps(value)};".replace("</", "<\\/") for name, value in given.items()]
    script = "\n".join(['"use strict";', *tables, read("figures.js"), read("studio.js")])
    return read("studio.html").replace("/*STYLE*/", read("studio.css")).replace("/*SCRIPT*/", script)


class Studio(http.server.ThreadingHTTPServer):
    """Listens on 127.0.0.1 alone. It carries out one run at a time: a new one ends the one before."""

    daemon_threads = True

    def __init__(self, port=0, bounds=Bounds()):
        super().__init__(("127.0.0.1", port), Answer)
        self.token, self.bounds, self.runs, self.count = secrets.token_urlsafe(16), bounds, {}, 0
        self.origin = f"http://127.0.0.1:{self.server_port}"

    @property
    def address(self):
        return f"{self.origin}/{self.token}/"

    def begin(self, kind, text):
        self.end_all()
        self.count += 1
        self.runs = {self.count: Run(kind, text, commands()[kind], self.bounds)}
        return self.count

    def end_all(self):
        """Ends what runs, and waits until its processes are gone."""
        for it in self.runs.values():
            it.stop("ended", "it was ended")
            it.thread.join(PATIENCE)


class Answer(http.server.BaseHTTPRequestHandler):
    """One request."""

    server_version, sys_version, protocol_version, timeout = "studio", "", "HTTP/1.1", 30

    def log_message(self, *_):
        pass

    def refusal(self):
        """Why this request isn't answered: it is none of this page's own; None if it is."""
        if self.headers.get_all("Host") != [self.server.origin.removeprefix("http://")]:
            return 403, "the host isn't this one"
        if self.headers.get("Origin", self.server.origin) != self.server.origin:
            return 403, "it comes from another origin"
        if self.headers.get("Sec-Fetch-Site", "none") not in ("same-origin", "none"):
            return 403, "it comes from another site"
        if self.command == "POST" and "Origin" not in self.headers:
            return 403, "it has no origin"
        token = self.path.split("/")[1] if self.path.count("/") >= 2 else ""
        if not hmac.compare_digest(token.encode(), self.server.token.encode()):
            return 404, "there is nothing here"
        return None

    def do_GET(self):
        self.answer({"": self.give_page, "view": self.give_viewer, "run": self.give_state, "output": self.give_output})

    def do_POST(self):
        self.answer({"begin": self.begin, "end": self.end})

    def answer(self, known):
        refusal = self.refusal()
        if refusal:
            self.close_connection = True
            self.give(*refusal)
            return
        name, _, rest = self.path.split("/", 2)[2].partition("/")
        act = known.get(name)
        if act is None:
            self.give(404, "there is nothing here")
        else:
            act(rest)

    def give(self, status, body, kind="text/plain"):
        data = body if isinstance(body, bytes) else body.encode()
        self.send_response(status)
        for name, value in {
            **HEADERS,
            "Content-Type": f"{kind}; charset=utf-8",
            "Content-Length": str(len(data)),
        }.items():
            self.send_header(name, value)
        self.end_headers()
        self.wfile.write(data)

    def give_json(self, value):
        self.give(200, json.dumps(value), "application/json")

    def give_page(self, _):
        self.give(200, studio_page(), "text/html")

    def give_viewer(self, _):
        self.give(200, "".join(joined()), "text/html")

    def run_asked(self, rest):
        return self.server.runs.get(int(rest)) if rest.isdecimal() and len(rest) < 10 else None

    def give_state(self, rest):
        run = self.run_asked(rest)
        self.give_json(run.told() if run else {"state": "gone"})

    def give_output(self, rest):
        run = self.run_asked(rest)
        if run:
            self.give(200, b"".join(run.output))
        else:
            self.give(404, "there is no such run")

    def body(self):
        """The request's JSON; None where it is none, or too long."""
        length = self.headers.get("Content-Length", "")
        is_short = length.isdecimal() and len(length) < 10 and int(length) <= MOST
        if not is_short or self.headers.get_content_type() != "application/json":
            self.close_connection = True
            return None
        try:
            value = json.loads(self.rfile.read(int(length)))
        except ValueError:
            return None
        return value if isinstance(value, dict) else None

    def begin(self, _):
        asked = self.body()
        if asked is None or asked.get("kind") not in commands() or not isinstance(asked.get("text"), str):
            self.give(400, "it is none of this page's requests, or it is too long")
            return
        self.give_json({"run": self.server.begin(asked["kind"], asked["text"])})

    def end(self, rest):
        self.body()
        run = self.run_asked(rest)
        if run:
            run.stop("ended", "it was ended")
        self.give_json({})
