"""The files of a document: as they lie on the disk, and as they are formatted.

A file that changes on the disk is sent to the program as it is now. What is typed into the page is sent too, and put on the disk when it is
saved. Where both happened, nobody's text is lost: the file stays as it was typed until the user chooses.
"""
import contextlib
import errno
import itertools
import os
import tempfile
import threading
import time

from served import Document, Ended

SECONDS = 0.05
# Behind so many looks it is asked whether there are more files.
LOOKS = 10
# A file whose time is as young as this may change once more without changing its time.
YOUNG = 2 * 10**8


class Conflict(Exception):
    """The file isn't any more what it was when this was asked."""


def contents(path):
    """What lies on the disk, None where nothing does."""
    try:
        with open(path, "rb") as file:
            return file.read()
    except OSError:
        return None


def put(path, data):
    """Writes a file beside its place and renames it, so that it is the old one or the new one at any time."""
    if os.path.lexists(path) and not os.access(path, os.W_OK):
        raise PermissionError(errno.EACCES, os.strerror(errno.EACCES))
    place = os.path.realpath(path)
    number, beside = tempfile.mkstemp(dir=os.path.dirname(place), prefix=".vortex-")
    try:
        with os.fdopen(number, "wb") as file:
            file.write(data)
        os.chmod(beside, os.stat(place).st_mode & 0o777 if os.path.exists(place) else 0o666 & ~UMASK)
        os.replace(beside, place)
    except BaseException:
        os.unlink(beside)
        raise


UMASK = os.umask(0o22)
os.umask(UMASK)


class File:
    """A file: its path, what lay on the disk when it was last read, when that was written, and how often its text has changed."""

    def __init__(self, path):
        self.path, self.disk, self.stamp, self.version, self.conflict = path, contents(path), None, 0, False
        self.gone = False

    def look(self):
        """Reads the file again where it has changed since; whether it has."""
        try:
            at = os.stat(self.path)
            stamp = at.st_mtime_ns, at.st_size, at.st_ino
        except OSError:
            at, stamp = None, ()
        if stamp == self.stamp:
            return False
        # (who saves by renaming may take it away for a moment)
        if at is None and self.disk is not None and not self.gone:
            self.gone = True
            return False
        self.gone = False
        new = contents(self.path)
        self.stamp = None if at and time.time_ns() - at.st_mtime_ns < YOUNG else stamp
        changed, self.disk = new != self.disk, new
        return changed


class Desk:
    """A document's files, and the document. Its version grows with each change, for which others may wait."""

    def __init__(self, program, main, paths, options=(), date=None, more=None):
        """`paths` has the path of each file by its name; `more` answers the same of the files that there are by then."""
        self.main, self.files, self.more = main, {name: File(path) for name, path in paths.items()}, more
        there = {name: file.disk for name, file in self.files.items() if file.disk is not None}
        self.document = Document(program, main, there, options, date)
        # How often the metrics of a font have changed.
        self.fonts = 0
        self.version, self.changed, self.ended = 1, threading.Condition(self.document.lock), None
        self.looking = threading.Thread(target=self.look, daemon=True)
        self.looking.start()

    def text(self, name):
        """A file's version and its contents."""
        with self.changed:
            return self.files[name].version, self.document.files.get(name, b"")

    def is_saved(self, name):
        return self.document.files.get(name) == self.files[name].disk

    def edit(self, name, version, place, removed, new):
        """Carries out what was typed into a file, as it was at a version."""
        with self.changed:
            file = self.files[name]
            if version != file.version or place + removed > len(self.document.files.get(name, b"")):
                raise Conflict()
            self.sent(self.document.edit, name, place, removed, new)

    def save(self, name, text, forced=False):
        """Puts a file on the disk as it is in the page, unless it has changed there."""
        with self.changed:
            file = self.files[name]
            if not forced and (file.conflict or contents(file.path) != file.disk):
                raise Conflict()
            put(file.path, text)
            file.disk, file.conflict = text, False
            if self.document.files.get(name) != text:
                self.sent(self.document.file, name, text)
            self.tell()

    def take(self, name):
        """Takes what lies on the disk in the stead of what was typed."""
        with self.changed:
            file = self.files[name]
            file.disk, file.conflict = contents(file.path), False
            self.sent_disk(name)

    def sent_disk(self, name):
        disk = self.files[name].disk
        if disk is None:
            self.sent(self.document.remove, name)
        else:
            self.sent(self.document.file, name, disk)

    def sent(self, request, name, *rest):
        """Makes a request that changes a file."""
        try:
            if self.ended is None and request(name, *rest):
                self.files[name].version += 1
                if name.endswith(".tfm"):
                    self.copy(name)
        except Ended as ended:
            self.ended = ended.args[0]
        self.tell()

    def copy(self, name):
        """Puts a file into the document's folder as it is by now; there what makes pictures of pages looks for the metrics of fonts."""
        self.fonts += 1
        path = os.path.join(self.document.folder, name)
        with contextlib.suppress(OSError):
            if name in self.document.files:
                os.makedirs(os.path.dirname(path), exist_ok=True)
                put(path, self.document.files[name])
            else:
                os.unlink(path)

    def tell(self):
        self.version += 1
        self.changed.notify_all()

    def look(self):
        """Looks at the files again and again."""
        for at in itertools.count(1):
            time.sleep(SECONDS)
            if self.ended is not None:
                return
            if self.more and at % LOOKS == 0:
                self.take_more()
            for name, file in self.files.items():
                with self.changed:
                    was_saved = self.is_saved(name) and not file.conflict
                    if not file.look():
                        continue
                    if was_saved or self.is_saved(name):
                        file.conflict = False
                        self.sent_disk(name)
                    else:
                        file.conflict = True
                        self.tell()

    def take_more(self):
        """Takes files that came later."""
        with contextlib.suppress(OSError):
            for name, path in self.more().items():
                if name not in self.files:
                    with self.changed:
                        self.files[name] = File(path)
                        self.sent_disk(name)

    def wait(self, version, seconds):
        """Waits until the version is another one."""
        with self.changed:
            self.changed.wait_for(lambda: self.version != version, seconds)

    def page(self, number):
        """The page of a number as a DVI file, and what it told, None where no page of the last run has it."""
        with self.changed:
            if number not in self.document.pages:
                return None
            at = self.document.pages.index(number) + 1
            return self.asked(self.document.page, at), self.asked(self.document.log, at) or b""

    def asked(self, request, *rest):
        """Makes a request that changes nothing."""
        try:
            return None if self.ended is not None else request(*rest)
        except Ended as ended:
            self.ended = ended.args[0]
            self.tell()

    def unsaved(self):
        """The files that aren't on the disk as they were typed."""
        with self.changed:
            return {name: self.document.files[name] for name in self.files if name in self.document.files and not self.is_saved(name)}

    def close(self):
        """Ends the document."""
        with self.changed:
            self.document.close()
            self.ended = 0
