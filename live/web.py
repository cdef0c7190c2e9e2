"""The page in the browser, and what it asks for, on 127.0.0.1.

It is a server for this page alone: it has no other files to give, refuses requests that come by another host's name, and answers only those
that carry a word which stands in the page, so that no other page can ask anything. All that is shown goes as text or as a picture.
"""
import http.server
import json
import os
import secrets
import socketserver
import sys
import urllib.parse

from desk import Conflict

HERE = os.path.dirname(os.path.abspath(__file__))
MOST_BYTES = 64 << 20
# So long a page waits for a change before it asks anew.
SECONDS = 20


class Refused(Exception):
    """A request that isn't carried out: a status and a text."""


class Web(http.server.ThreadingHTTPServer):
    daemon_threads = True

    def __init__(self, port, desk, pictures, words):
        """`words` has the words of each error by its number."""
        super().__init__(("127.0.0.1", port), Handler)
        self.desk, self.pictures, self.words, self.token = desk, pictures, words, secrets.token_urlsafe(18)
        self.port = self.server_address[1]
        # (a browser leaves port 80 out)
        self.hosts = {host + end for host in ("127.0.0.1", "localhost") for end in ([f":{self.port}"] + [""] * (self.port == 80))}

    def server_bind(self):
        # (without a search for the name of this machine)
        socketserver.TCPServer.server_bind(self)

    def handle_error(self, request, client_address):
        # (a browser that goes away is no fault)
        if not isinstance(sys.exc_info()[1], ConnectionError):
            super().handle_error(request, client_address)

    def state(self):
        """All that the page shows but the pictures and the texts."""
        desk = self.desk
        with desk.changed:
            document, error = desk.document, desk.document.error
            files = [{"name": name, "version": file.version, "changed": not desk.is_saved(name), "conflict": file.conflict}
                     for name, file in desk.files.items() if not name.endswith(".tfm")]
            return {
                "version": desk.version, "main": desk.main, "files": files, "line": document.line, "pages": document.pages, "behind": document.behind,
                "error": error and {"words": self.words.get(error[0], ""), "name": error[1], "line": error[2]},
                "ended": desk.ended, "missing": self.pictures.missing(),
            }


class Handler(http.server.BaseHTTPRequestHandler):
    protocol_version = "HTTP/1.1"
    server_version, sys_version = "vortex-live", ""
    disable_nagle_algorithm = True

    def do_GET(self):
        self.carry_out({"/": self.get_page, "/state": self.get_state, "/text": self.get_text, "/page": self.get_picture, "/log": self.get_log, "/locate": self.get_place})

    def do_POST(self):
        self.carry_out({"/edit": self.post_edit, "/save": self.post_save, "/take": self.post_take})

    def carry_out(self, answers):
        path, _, query = self.path.partition("?")
        try:
            if self.headers.get("Host") not in self.server.hosts:
                raise Refused(403, "This is the page of another host.")
            if path not in answers:
                raise Refused(404, "There is no such page.")
            if path != "/" and not secrets.compare_digest(self.headers.get("X-Vortex", "").encode(), self.server.token.encode()):
                raise Refused(403, "This wasn't asked by the page.")
            self.asked = dict(urllib.parse.parse_qsl(query))
            self.data = self.body()
            answers[path]()
        except Refused as refused:
            self.close_connection = True
            self.answer(refused.args[0], "text/plain; charset=utf-8", refused.args[1].encode())
        except Conflict:
            self.answer(409, "text/plain; charset=utf-8", b"The file has changed since.")
        except (BrokenPipeError, ConnectionResetError):
            self.close_connection = True

    def body(self):
        size = self.headers.get("Content-Length", "0")
        if not size.isdecimal() or len(size) > 9 or int(size) > MOST_BYTES or "Transfer-Encoding" in self.headers:
            raise Refused(413, "That is no file.")
        return self.rfile.read(int(size))

    def answer(self, status, kind, data, **headers):
        self.send_response(status)
        named = {"Content-Type": kind, "Content-Length": len(data), "Cache-Control": "no-store", "X-Content-Type-Options": "nosniff", "Cross-Origin-Resource-Policy": "same-origin"}
        for name, value in (named | {name.replace("_", "-"): value for name, value in headers.items()}).items():
            self.send_header(name, str(value))
        self.end_headers()
        self.wfile.write(data)

    def tell(self, value):
        self.answer(200, "application/json", json.dumps(value).encode())

    def number(self, word):
        value = self.asked.get(word, "")
        if not (value.isascii() and value.isdecimal() and len(value) < 16):
            raise Refused(400, f"{word} is a number.")
        return int(value)

    def name(self):
        name = self.asked.get("name")
        if name not in self.server.desk.files:
            raise Refused(404, "The document has no such file.")
        return name

    def get_page(self):
        with open(os.path.join(HERE, "page.html"), encoding="utf-8") as file:
            text = file.read().replace("{token}", self.server.token)
        rules = f"default-src 'none'; script-src 'nonce-{self.server.token}'; style-src 'nonce-{self.server.token}'; img-src blob: data:; connect-src 'self'"
        rules += "; base-uri 'none'; form-action 'none'; frame-ancestors 'none'"
        self.answer(200, "text/html; charset=utf-8", text.encode(), Content_Security_Policy=rules, Referrer_Policy="no-referrer", Cross_Origin_Opener_Policy="same-origin")

    def get_state(self):
        self.server.desk.wait(self.number("after"), SECONDS)
        self.tell(self.server.state())

    def get_text(self):
        version, text = self.server.desk.text(self.name())
        self.answer(200, "application/octet-stream", text, X_Version=version)

    def get_picture(self):
        found = self.server.desk.page(self.number("number"))
        if found is None or found[0] is None:
            raise Refused(404, "There is no such page any more.")
        dvi, log = found
        name, picture, complaint = self.server.pictures.picture(dvi, self.server.desk.fonts)
        self.tell({"picture": name, "svg": picture, "complaint": complaint, "log": log.decode(errors="replace")})

    def get_log(self):
        desk = self.server.desk
        self.answer(200, "text/plain; charset=utf-8", desk.asked(desk.document.log) or b"")

    def get_place(self):
        desk = self.server.desk
        self.tell(desk.asked(desk.document.locate, self.name(), self.number("place")))

    def post_edit(self):
        name = self.name()
        self.server.desk.edit(name, self.number("version"), self.number("place"), self.number("removed"), self.data)
        self.tell(self.server.state())

    def post_save(self):
        try:
            self.server.desk.save(self.name(), self.data, "forced" in self.asked)
        except OSError as fault:
            raise Refused(500, f"It can't be saved: {fault.strerror}.") from None
        self.tell(self.server.state())

    def post_take(self):
        self.server.desk.take(self.name())
        self.tell(self.server.state())

    def log_message(self, *_):
        pass
