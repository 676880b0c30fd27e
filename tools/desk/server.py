"""The server: fixed pages and a few calls, to this machine alone, under a word in the address that only who started it knows.

Pages are read when it starts, and no path of a request is opened. It answers if the request names this machine (no other name can be bound to it), comes
from one of its own pages if it says where it comes from, and has the word; calls are JSON, which forms of other sites cannot send.
"""
import hmac
import json
import os
import re
import sys
import threading
import time
import traceback
from http.server import BaseHTTPRequestHandler, ThreadingHTTPServer
from typing import Any, Callable, Dict, List, NamedTuple, Tuple, Union

from phrasebook import causes

from . import tablet
from .engine import HOUSE, Engine, Sheet, Unread
from .folder import MOST_BYTES, NAME, Folder, Unsaved, stamp

PAGES = os.path.join(os.path.dirname(os.path.dirname(os.path.abspath(__file__))), "pages")
MOST_BODY, MOST_TEXT, MOST_TESTS = 2 * 1024 * 1024, MOST_BYTES, 200
KINDS = {".html": "text/html; charset=utf-8", ".css": "text/css; charset=utf-8", ".js": "text/javascript; charset=utf-8"}
POLICY = ("default-src 'none'; script-src 'self'; style-src 'self'; connect-src 'self'; img-src 'self' data:; base-uri 'none'; form-action 'none'; "
          "frame-ancestors 'none'")
TEXT, JSON, BYTES = "text/plain; charset=utf-8", "application/json", "application/octet-stream"


class Refused(Exception):
    """A request that is not answered."""

    def __init__(self, status: int, why: str):
        super().__init__(why)
        self.status, self.why = status, why


class Request(NamedTuple):
    """The parts of a call, each of its kind and within its limit."""
    sheet: Sheet
    formula: str
    tests: List[Dict[str, str]]
    stamp: str


def text_of(value: Any, what: str) -> str:
    if not isinstance(value, str) or len(value) > MOST_TEXT:
        raise ValueError("%s is a text of at most %d characters" % (what, MOST_TEXT))
    return value


def checked(sent: Any) -> Request:
    name, texts, tests = sent["name"], sent["texts"], sent.get("tests", [])
    if not isinstance(texts, dict) or name not in texts or not all(NAME.fullmatch(n) for n in texts):
        raise ValueError("a grammar's name is letters, digits, - or _, and .grammar")
    if len(tests) > MOST_TESTS:
        raise ValueError("at most %d tests" % MOST_TESTS)
    return Request(Sheet(name, {n: text_of(t, "a grammar") for n, t in texts.items()}), text_of(sent.get("formula", ""), "a formula"),
                   [{key: text_of(t[key], key) for key in ("formula", "expected")} for t in tests], text_of(sent.get("stamp", ""), "a stamp"))


Made = Union[bytes, Dict[str, Any]]


class Desk:
    """The calls of the page."""

    def __init__(self, engine: Engine, folder: Folder):
        self.engine, self.folder = engine, folder
        self.parts = read_parts()

    def start(self) -> Dict[str, Any]:
        """All that a page begins with."""
        grammars = [{"name": n, "text": d.decode("utf-8"), "stamp": stamp(d), "tests": self.folder.tests(n)} for n, d in self.folder.grammars().items()]
        listed = [{"number": c.number, "words": causes.with_limits(c.words, "{:,}".format), "values": "" if c.said == "-" else c.said, "example": c.example}
                  for c in causes.LIST]
        with open(HOUSE, encoding="utf-8") as f:
            house = f.read()
        return {"grammars": grammars, "causes": listed, "folder": self.folder.path, "library": self.engine.library.name, "house": house}

    def expand(self, r: Request) -> Made:
        return self.engine.expand(r.sheet, r.formula)

    def origins(self, r: Request) -> Made:
        return self.engine.origins(r.sheet, r.formula)

    def tests(self, r: Request) -> Made:
        return self.engine.tests(r.sheet, r.tests)

    def house(self, r: Request) -> Made:
        return self.engine.house(r.tests[0]["formula"], r.tests[0]["expected"]) if r.tests else {}

    def save(self, r: Request) -> Made:
        return {"stamp": self.folder.save(r.sheet.name, r.sheet.grammar, r.stamp)}

    def save_tests(self, r: Request) -> Made:
        return {"file": self.folder.save_tests(r.sheet.name, r.tests)}

    def table(self, r: Request) -> Made:
        return self.engine.packed(r.sheet).data

    def tablet(self, r: Request) -> Made:
        packed = self.engine.packed(r.sheet)
        if self.engine.library.check(packed.data).number:
            raise Refused(422, "the table is refused; mend the grammar first")
        built = tablet.built()
        if built is None:
            raise Refused(422, "the library for browsers is not built: `%s`, in the folder of this repository, builds it" % tablet.BUILD)
        held = tablet.holding(r.sheet.name, packed, r.formula, [t["formula"] for t in r.tests], built[tablet.MODULE])
        return tablet.page({**self.parts, **built}, held)


def read_parts() -> Dict[str, bytes]:
    """The files of the pages, by their names."""
    out = {}
    for name in sorted(os.listdir(PAGES)):
        with open(os.path.join(PAGES, name), "rb") as f:
            out[name] = f.read()
    return out


CALLS: Dict[str, Callable[[Desk, Request], Made]] = {
    "api/expand": Desk.expand, "api/origins": Desk.origins, "api/tests": Desk.tests, "api/house": Desk.house, "api/save": Desk.save,
    "api/save-tests": Desk.save_tests, "api/table": Desk.table, "api/tablet": Desk.tablet}
TOO_DEEP = {"stage": "notation", "title": "The grammar cannot be read", "said": ["nested too deeply"], "text": "nested too deeply", "marks": [], "results": []}


class Server(ThreadingHTTPServer):
    """Two calls are worked at a time; each thread has the stack that threading.stack_size gave it."""
    daemon_threads = True
    request_queue_size = 32

    def __init__(self, port: int, word: str, desk: Desk):
        super().__init__(("127.0.0.1", port), Handler)
        self.port, self.word, self.desk = self.server_address[1], word, desk
        self.own = ["127.0.0.1:%d" % self.port, "localhost:%d" % self.port]
        self.turn = threading.Semaphore(2)
        self.pages = {n: (KINDS[os.path.splitext(n)[1]], d) for n, d in desk.parts.items() if not n.startswith("tablet")}
        self.pages[""] = self.pages.pop("index.html")

    def handle_error(self, request: Any, client_address: Any) -> None:
        """A browser may drop a connection at any time; other faults are told where the workbench was started."""
        if not isinstance(sys.exc_info()[1], ConnectionError):
            super().handle_error(request, client_address)

    def address(self) -> str:
        return "http://%s/%s/" % (self.own[0], self.word)


class Handler(BaseHTTPRequestHandler):
    server: Server
    server_version, sys_version, protocol_version = "workbench", "", "HTTP/1.1"
    timeout, disable_nagle_algorithm = 30, True

    def log_message(self, *_: Any) -> None:
        """Nothing is logged: an address has the word in it."""

    def do_GET(self) -> None:
        self.answer(self.page)

    def do_POST(self) -> None:
        self.answer(self.call)

    def answer(self, work: Callable[[str], Tuple[str, bytes]]) -> None:
        """Sends what the work gives, or why it gives nothing."""
        try:
            self.send(200, *work(self.asked()))
        except Refused as e:
            self.close_connection = True
            self.send(e.status, TEXT, e.why.encode("utf-8", "replace"))
        except (BrokenPipeError, ConnectionResetError, TimeoutError):
            self.close_connection = True   # the page has asked anew
        except Exception:   # a fault of the workbench: told where it was started and on the page, and it goes on
            traceback.print_exc()
            self.close_connection = True
            self.send(500, TEXT, b"the workbench failed at this; what it was is said where it was started")

    def asked(self) -> str:
        """What is asked for behind the word of the address. A page of another site or under another name of this machine is not answered."""
        own = self.server.own
        if self.headers.get("Host") not in own:
            raise Refused(421, "this workbench answers to http://%s/ only" % own[0])
        origin = self.headers.get("Origin")
        if origin is not None and origin not in ["http://" + o for o in own]:
            raise Refused(403, "another site asks")
        word, _, rest = self.path[1:].partition("/")
        if not hmac.compare_digest(word.encode("utf-8", "replace"), self.server.word.encode("ascii")):
            raise Refused(404, "open the whole address that the workbench printed when it was started")
        return rest

    def send(self, status: int, kind: str, data: bytes) -> None:
        self.send_response(status)
        headers = {"Content-Type": kind, "Content-Length": str(len(data)), "Content-Security-Policy": POLICY, "X-Content-Type-Options": "nosniff",
                   "Referrer-Policy": "no-referrer", "Cache-Control": "no-store", "Cross-Origin-Resource-Policy": "same-origin",
                   "Connection": "close" if self.close_connection else "keep-alive"}
        for key, value in headers.items():
            self.send_header(key, value)
        self.end_headers()
        self.wfile.write(data)

    def page(self, asked: str) -> Tuple[str, bytes]:
        if asked == "api/start":
            return JSON, json.dumps(self.server.desk.start()).encode("utf-8")
        if asked not in self.server.pages:
            raise Refused(404, "there is no such page")
        return self.server.pages[asked]

    def call(self, asked: str) -> Tuple[str, bytes]:
        if asked not in CALLS:
            raise Refused(404, "there is no such call")
        request, began = self.request_sent(), time.perf_counter()
        made = self.made(CALLS[asked], request)
        if isinstance(made, bytes):
            return BYTES, made
        return JSON, json.dumps(dict(made, ms=round(1000 * (time.perf_counter() - began), 2))).encode("utf-8")

    def request_sent(self) -> Request:
        if self.headers.get_content_type() != JSON:
            raise Refused(415, "JSON is asked")
        length = self.headers.get("Content-Length", "")
        if not re.fullmatch(r"[0-9]{1,12}", length) or "Transfer-Encoding" in self.headers:
            raise Refused(411, "a length is asked")
        if int(length) > MOST_BODY:
            raise Refused(413, "a request has at most %d bytes" % MOST_BODY)
        try:
            return checked(json.loads(self.rfile.read(int(length))))
        except (ValueError, KeyError, TypeError, AttributeError, RecursionError) as e:
            raise Refused(400, "this request is not understood: %s" % e)

    def made(self, work: Callable[[Desk, Request], Made], request: Request) -> Made:
        try:
            with self.server.turn:
                return work(self.server.desk, request)
        except RecursionError:
            return TOO_DEEP
        except Unread as e:
            raise Refused(422, str(e))
        except Unsaved as e:
            raise Refused(409, str(e))
