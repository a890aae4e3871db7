"""The server of tools/edit: who may ask, what is asked, and how large it may be.

It listens on 127.0.0.1 alone. Another program or page of the machine that does not know the token
is refused, and so is a page of another origin that does, or a name that was made to point here: the
token, `Host`, `Origin` and `Sec-Fetch-Site` are looked at before anything else of a request.
"""

import hmac
import http.server
import json
import os
import secrets
import urllib.parse

import edit_runs
import page_file
from edit_calls import NO_ANSWER, Asker, Refused

PARTS = os.path.join(os.path.dirname(os.path.abspath(__file__)), "edit_parts")
SCRIPTS = [
    "ask.js",
    "keep.js",
    "colours.js",
    "editor.js",
    "ways.js",
    "results.js",
    "play.js",
    "files.js",
    "edit.js",
]
FILES = {
    "": ("edit.html", "text/html"),
    "edit.css": ("edit.css", "text/css"),
    **{name: (name, "text/javascript") for name in SCRIPTS},
}
HTML, JSON, TEXT = "text/html", "application/json", "text/plain"
# What the page may load, and who may show it.
RULE = (
    "default-src 'none'; script-src 'self'; style-src 'self'; connect-src 'self'; frame-src 'self';"
    " base-uri 'none'; form-action 'none'; frame-ancestors 'self'"
)
RULE_OF_ROWS = "frame-ancestors 'self'"  # beside its own, which forbids it every request
BAD, FORBIDDEN, NOT_FOUND, NO_LENGTH, TOO_LARGE = 400, 403, 404, 411, 413
MOST_DIGITS = 12  # of a number in a request
MOST_DROPPED = 4 * edit_runs.MOST_INPUT  # of what is too large, so much is read and dropped
SECONDS = 60  # how long a request may take to come
# The numbers of a scan, as the program takes them, by the names that the page has for them.
SCAN = {
    "from": (0, 4294967295),
    "positions": (1, 4294967296),
    "row": (0, 4294967295),
    "pairs": (1, 1000000),
}


class Server(http.server.ThreadingHTTPServer):
    """The server, with what it answers from."""

    daemon_threads = True

    def __init__(self, port, runs, scenarios):
        super().__init__(("127.0.0.1", port), Handler)
        self.runs, self.scenarios = runs, scenarios
        self.token = secrets.token_urlsafe(24)
        self.names = [f"{name}:{self.server_port}" for name in ("127.0.0.1", "localhost")]

    @property
    def address(self):
        return f"http://{self.names[0]}/{self.token}/"

    def handle_error(self, request, client_address):
        """Says nothing of a browser that went away."""


class Handler(http.server.BaseHTTPRequestHandler):
    """One request."""

    protocol_version = "HTTP/1.1"
    server_version, sys_version = "scatter", ""
    timeout = SECONDS

    def log_message(self, *_):  # pylint: disable=arguments-differ
        """Says nothing of each request."""

    # ---- who may ask

    def refusal(self):
        """Why this request is refused, or nothing. A browser names the origin of each POST."""
        hosts, origins = self.headers.get_all("Host", []), self.headers.get_all("Origin", [])
        if len(hosts) != 1 or hosts[0] not in self.server.names:
            return "this Host is not the page's"
        wants_origin = self.command == "POST"
        if (origins or wants_origin) and origins != [f"http://{hosts[0]}"]:
            return "this Origin is not the page's"
        if self.headers.get("Sec-Fetch-Site", "none") not in ("same-origin", "none"):
            return "this is asked by another page"
        token = self.path.split("/")[1] if self.path.startswith("/") else ""
        if not hmac.compare_digest(token.encode("latin-1"), self.server.token.encode()):
            return "the address lacks the token: take it whole, as ./scatter edit printed it"
        return None

    def handle_one(self, answers):
        """Answers a request, or says why not."""
        refusal = self.refusal()
        if refusal:
            self.close_connection = True
            return self.send(FORBIDDEN, TEXT, refusal.encode())
        path, _, query = self.path.partition("?")
        name = path.split("/", 2)[2] if path.count("/") >= 2 else None
        fields = dict(urllib.parse.parse_qsl(query))
        asker = Asker(self.connection, fields.get("page", "")[:64])
        try:
            return answers(name, fields, asker)
        except Refused as fault:
            return self.json({"fault": fault.said}, fault.status)
        except MemoryError:
            return self.json({"fault": "the server is out of memory"}, NO_ANSWER)
        except OSError as fault:
            said = f"{fault.filename or 'the temporary folder'}: {fault.strerror}"
            return self.json({"fault": said}, NO_ANSWER)

    def do_GET(self):
        self.handle_one(self.answer_get)

    def do_POST(self):
        self.handle_one(self.answer_post)

    # ---- what is sent back

    def send(self, status, kind, body, rule=RULE):
        self.send_response(status)
        for name, value in (
            ("Content-Type", f"{kind}; charset=utf-8"),
            ("Content-Length", str(len(body))),
            ("Content-Security-Policy", rule),
            ("Cache-Control", "no-store"),
            ("Referrer-Policy", "no-referrer"),
            ("X-Content-Type-Options", "nosniff"),
            ("Cross-Origin-Resource-Policy", "same-origin"),
        ):
            self.send_header(name, value)
        if self.close_connection:
            self.send_header("Connection", "close")
        self.end_headers()
        self.wfile.write(body)

    def json(self, said, status=200):
        self.send(status, JSON, json.dumps(said).encode())

    # ---- what is asked

    def answer_get(self, name, fields, asker):
        if name in FILES:
            file, kind = FILES[name]
            with open(os.path.join(PARTS, file), "rb") as source:
                return self.send(200, kind, source.read())
        runs = self.server.runs
        if name == "start":
            said = {"proved": runs.program.now()[1], "busy": runs.is_busy}
            return self.json({**self.server.scenarios.all(), **said})
        if name == "busy":
            return self.json({"busy": runs.is_busy})
        if name == "scenario":
            return self.json({"text": self.server.scenarios.text(fields.get("name", ""))})
        if name == "frame":
            return self.send(200, HTML, page_file.without_run().encode(), RULE_OF_ROWS)
        if name == "rows":
            return self.send(200, JSON, runs.rows(number(fields, "run"), asker))
        return self.json(self.of_run(name, fields, asker))

    def of_run(self, name, fields, asker):
        """What is asked of a run."""
        runs = self.server.runs
        asks = {
            "report": lambda run: runs.report(run, asker),
            "audit": lambda run: runs.audit(run, asker),
            "scan": lambda run: runs.scan(run, scan_words(fields), asker),
            "frees": lambda run: runs.frees(run, what_waits(fields), asker),
            "cut": lambda run: runs.cut(run, number(fields, "row"), asker),
            "states": lambda run: runs.states(run, number(fields, "node", 1, 32), asker),
            "differ": lambda run: runs.differ(run, number(fields, "other"), asker),
        }
        if name not in asks:
            raise Refused(NOT_FOUND, "there is no such page")
        return asks[name](number(fields, "run"))

    def answer_post(self, name, _, asker):
        text = self.body()
        runs = self.server.runs
        if name == "check":
            return self.json(runs.check(text, asker))
        if name == "run":
            return self.json(runs.run(text, asker))
        if name == "play":
            head, data = runs.play(text, asker)
            said = b'{"head":' + json.dumps(head).encode() + b',"data":' + data + b"}"
            return self.send(200, JSON, said)
        if name == "stop":
            runs.stop()
            return self.json({})
        raise Refused(NOT_FOUND, "there is no such page")

    def body(self):
        """What was sent, which is no longer than the program takes."""
        said = self.headers.get("Content-Length", "")
        if not (said.isascii() and said.isdecimal()) or "Transfer-Encoding" in self.headers:
            self.close_connection = True
            raise Refused(NO_LENGTH, "a text is sent with its length")
        digits = said.lstrip("0")
        length = int(digits or "0") if len(digits) <= MOST_DIGITS else MOST_DROPPED
        if length > edit_runs.MOST_INPUT:
            self.close_connection = True
            self.drop(min(length, MOST_DROPPED))
            raise Refused(TOO_LARGE, f"a scenario has at most {edit_runs.MOST_INPUT:,} bytes")
        text = self.rfile.read(length)
        if len(text) != length:
            self.close_connection = True
            raise Refused(BAD, "the text was cut off")
        return text

    def drop(self, length):
        """Reads and drops, since who still sends does not listen to the answer."""
        while length > 0:
            piece = self.rfile.read(min(length, 2**16))
            if not piece:
                return
            length -= len(piece)


def number(fields, name, least=0, most=4294967296):
    """A number of a request."""
    said = fields.get(name, "")
    is_short = said.isascii() and said.isdecimal() and len(said) <= MOST_DIGITS
    if not is_short or not least <= int(said) <= most:
        raise Refused(BAD, f"{name} is a number from {least} to {most}")
    return int(said)


def scan_words(fields):
    """The words of a scan, in the order of the program."""
    return [str(number(fields, name, *bounds)) for name, bounds in SCAN.items()]


def what_waits(fields):
    """A request or an order, as tools/why takes it."""
    if "order" in fields:
        return ["--order", str(number(fields, "order", 1))]
    return [str(number(fields, "client", 1)), str(number(fields, "seq", 1))]
