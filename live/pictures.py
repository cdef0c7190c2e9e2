"""Pictures of pages: a page as a DVI file becomes an SVG file by `dvisvgm`, in which letters are outlines."""
import collections
import hashlib
import os
import re
import shutil
import subprocess
import threading

PROGRAM = "dvisvgm"
HOW_TO_GET = "There are no pictures of the pages, since there is no dvisvgm here. On Debian: apt-get install dvisvgm texlive-base"
# What is seen around a page's box, in points, so that what sticks out of it shows.
MARGIN = 36
MOST_BYTES = 128 << 20
AT_ONCE = 2
SECONDS = 60
# Specials that draw colours are carried out; those that run PostScript, or put in other files or text of SVG's own, aren't.
FORBIDDEN = "dvisvgm,html,pdf,ps"


def corner(dvi):
    """How far a page's box reaches to the right and down from its origin, in points, as its postamble tells."""
    end = len(dvi.rstrip(b"\xdf")) - 5
    post = int.from_bytes(dvi[end:end + 4], "big")
    magnification, height, width = (int.from_bytes(dvi[post + at:post + at + 4], "big") for at in (13, 17, 21))
    return width * magnification / 65536000, height * magnification / 65536000


class Pictures:
    """The pictures that were made, by their pages' bytes; those that were asked for least lately are forgotten."""

    def __init__(self, folder, maps):
        """In the folder lie the document's font metrics; `maps` are files of font maps."""
        self.folder = folder
        self.words = [PROGRAM, "--no-fonts", "--no-mktexmf", f"--no-specials={FORBIDDEN}", "--precision=2", "--stdin", "--stdout"]
        # (in the list of maps a comma stands between two, so they get names of their own)
        for at, path in enumerate(maps):
            os.symlink(path, os.path.join(folder, f"{at}.map"))
        self.words += [f"--fontmap=+{','.join(f'{at}.map' for at in range(len(maps)))}"] if maps else []
        self.kept, self.bytes = collections.OrderedDict(), 0
        self.lock, self.working = threading.Lock(), threading.Semaphore(AT_ONCE)

    def missing(self):
        """How to get what makes pictures, where it isn't there."""
        return None if shutil.which(PROGRAM) else HOW_TO_GET

    def picture(self, dvi, fonts=0):
        """The name of a page's picture, the picture, and what dvisvgm complained of; `fonts` is how often the metrics of a font have changed."""
        name = hashlib.sha256(dvi + bytes(fonts)).hexdigest()[:20]
        with self.lock:
            if name in self.kept:
                self.kept.move_to_end(name)
                return name, *self.kept[name]
        with self.working:
            made = self.make(dvi)
        with self.lock:
            if name not in self.kept:
                self.kept[name] = made
                self.bytes += len(made[0])
            while self.bytes > MOST_BYTES:
                self.bytes -= len(self.kept.popitem(last=False)[1][0])
        return name, *made

    def make(self, dvi):
        width, height = corner(dvi)
        box = f"--bbox={-MARGIN}pt {-MARGIN}pt {width + MARGIN:.3f}pt {height + MARGIN:.3f}pt"
        try:
            done = subprocess.run([*self.words, box], cwd=self.folder, input=dvi, capture_output=True, timeout=SECONDS)
        except FileNotFoundError:
            return "", ""
        except (OSError, subprocess.TimeoutExpired) as fault:
            return "", str(fault)
        told = re.findall(r"(?m)^(?:ERROR|WARNING): (.*)$", done.stderr.decode(errors="replace"))
        return done.stdout.decode(errors="replace") if done.returncode == 0 else "", "\n".join(sorted(set(told)))
