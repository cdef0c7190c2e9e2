"""A document that `vortex serve` keeps formatted, for a client in Python.

    from served import Document
    document = Document(["./vortex"], "main.tex", {"main.tex": text, "cmr10.tfm": metrics})
    document.edit("main.tex", 120, 3, b"word")    # 120 bytes behind the beginning three bytes give way to these
    document.file("main.tex", contents)           # the file has these contents from now on
    document.line, document.end, document.error   # what the last run came to
    document.pages                                # a number for each page, which stays as long as the page does
    document.page(1), document.log(1)             # the page as a DVI file of its own, and what it told
    document.locate("main.tex", 120)              # the page by which this place is first read
    document.close()

A client asks for the pages that it has a place for, and of those for the ones alone whose numbers it hasn't met. docs/FORMATS.md has the
requests and their answers. Threads may share a document: each call is whole, and who makes several of them as one holds its lock.
"""
import contextlib
import os
import re
import subprocess
import tempfile
import threading
import time

RUN = re.compile(r"(?:run|edit \d+): (\d+) pages(?:, resumed (\d+), formatted (\d+), reused (\d+))?, (.*)")
ERROR = re.compile(r"error (\d+)(?: at (\S+) line (\d+))?")
NAME = re.compile(r"[!-~]{1,255}")
# Behind so many changes the program lets an earlier run go; no file has more bytes.
MOST_CHANGES, MOST_BYTES = 1000, 67108864


class Ended(Exception):
    """The program ended, with this status."""


class Document:
    """A document, from its first run on. `files` has the contents of each file as they are by now."""

    def __init__(self, program, main, files, options=(), date=None):
        """Starts `program`, a list of words, with copies of the files in a folder of their own; `options` are further ones of `serve`."""
        self.files, self.lock = dict(files), threading.RLock()
        self._folder = tempfile.TemporaryDirectory(prefix="vortex-")
        self.folder = self._folder.name
        for name, contents in files.items():
            if name.startswith("/") or ".." in name.split("/") or not NAME.fullmatch(name):
                raise ValueError(f"{name!r} is no name of a file in the document's folder")
            path = os.path.join(self.folder, name)
            os.makedirs(os.path.dirname(path), exist_ok=True)
            with open(path, "wb") as file:
                file.write(contents)
        now = time.localtime()
        date = date or f"{now.tm_year}-{now.tm_mon}-{now.tm_mday}-{60 * now.tm_hour + now.tm_min}"
        words = [*program, "serve", "--date", date, *options, "--", main, *(name for name in files if name != main)]
        # (in a session of its own it isn't reached by the Ctrl-C that ends its client)
        self.process = subprocess.Popen(words, cwd=self.folder, stdin=subprocess.PIPE, stdout=subprocess.PIPE, start_new_session=True)
        # The line of the last run, how it ended, and the numbers of its pages.
        self.line, self.end, self.pages, self._numbers = "", "", [], 0
        # What the next line counts from: the pages of the last whole run, or else of the last one; and the changes since.
        self._base, self._whole, self._since = [], False, 0
        first = self._asked(b"")
        if not RUN.fullmatch(first):
            raise Ended(self.process.wait())
        self._take(first)

    def edit(self, name, place, removed, put):
        """Takes `removed` bytes out of a file at a place and puts others there; whether that was done."""
        with self.lock:
            old = self.files.get(name, b"")
            return self._change("edit", [place, removed, len(put)], name, put + b"\n", old[:place] + put + old[place + removed:])

    def file(self, name, contents):
        """Gives a file its contents; whether that was done."""
        with self.lock:
            # (contents that it has are no change)
            return self.files.get(name) == contents or self._change("file", [len(contents)], name, contents + b"\n", contents)

    def remove(self, name):
        """Takes a file away; whether that was done."""
        return self._change("remove", [], name, b"", None)

    def page(self, number):
        """A page as a DVI file, counted from 1, or None."""
        return self._counted(b"page %d\n" % number)

    def log(self, number=None):
        """The transcript, or what a page brought to it, or None where there is no such page."""
        return self._counted(b"log\n" if number is None else b"log %d\n" % number)

    def locate(self, name, place):
        """The page by which a place is first read, one past the last where that is behind it, None where nothing hangs on the place."""
        told = self._asked(b"locate %d %s\n" % (place, name.encode())) if NAME.fullmatch(name) else ""
        number = re.search(r"\d+", told.partition(": ")[2])
        return number and int(number[0]) + ("after" in told)

    @property
    def error(self):
        """The number of the error by which the last run ended, its file and its line, or None."""
        found = ERROR.fullmatch(self.end)
        return found and (int(found[1]), found[2], found[3] and int(found[3]))

    @property
    def behind(self):
        """The pages of the last whole run at the places that the last run didn't come to."""
        return self._base[len(self.pages):] if self._since else []

    def close(self):
        """Ends the program."""
        with self.lock:
            self.process.terminate()
            self.process.communicate()
            self._folder.cleanup()

    def _change(self, word, numbers, name, put, contents):
        # (one that is refused by its line would have its bytes read as requests)
        if not (NAME.fullmatch(name) and all(0 <= number <= MOST_BYTES for number in numbers)):
            return False
        with self.lock:
            line = self._asked(" ".join([word, *map(str, numbers), name]).encode() + b"\n" + put)
            if not RUN.fullmatch(line):
                self.line = line
                return False
            self._take(line)
            self.files = {it: text for it, text in (self.files | {name: contents}).items() if text is not None}
            return True

    def _take(self, line):
        """Takes the pages of a run from its line."""
        pages, resumed, formatted, reused, self.end = RUN.fullmatch(line).groups()
        resumed, formatted, reused = int(resumed or 0), int(formatted or pages), int(reused or 0)
        new = list(range(self._numbers, self._numbers + formatted))
        self.line, self._numbers, self._since = line, self._numbers + formatted, self._since + 1
        self.pages = self._base[:resumed] + new + self._base[len(self._base) - reused:]
        is_cut = self.end == "budget" or self.end.startswith("error")
        if not (self._whole and is_cut and self._since <= MOST_CHANGES):
            self._base, self._whole, self._since = self.pages, self.end == "end", 0

    def _asked(self, request):
        with self.lock:
            # (where it has ended, there is no answer either)
            with contextlib.suppress(OSError):
                self.process.stdin.write(request)
                self.process.stdin.flush()
            line = self.process.stdout.readline()
            if not line.endswith(b"\n"):
                raise Ended(self.process.wait())
            return line[:-1].decode()

    def _counted(self, request):
        with self.lock:
            found = re.search(r": (\d+) bytes$", self._asked(request))
            return self.process.stdout.read(int(found[1]) + 1)[:-1] if found else None
