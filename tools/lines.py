"""What the program makes of documents of paragraphs beside what Knuth's TeX makes of them, for check-paragraphs and check-english.

In a marked document each paragraph ends with END, and its \\parshape stands between SHAPE and END_SHAPE, so that `breaking.py` is told
its list and its lines.
"""
import functools
import itertools
import os
import re
import shutil
import subprocess
import tempfile

import breaking
import knuth
import metrics
from dvi import Dvi

FONTS = {"Fa": "cmr10", "Fb": "cmti10", "Fc": "cmbx10", "Fd": "cmr7", "Fe": "cmtt10", "Ff": "cmss10", "Fg": "cmr12"}
# Where a paragraph ends; it is nothing, or shows the list.
END = "\0"
SHAPE, END_SHAPE = "\1", "\2"
# A document ends, and may take its time.
knuth.SECONDS = 20
# The limit of demerits of Knuth's TeX.
AWFUL = 2 ** 30 - 1


@functools.cache
def font_bytes(name):
    path = subprocess.run(["kpsewhich", name + ".tfm"], capture_output=True).stdout.decode().strip()
    if not path:
        return None
    with open(path, "rb") as file:
        return file.read()


@functools.cache
def widths(name, size):
    return metrics.widths(font_bytes(name), size)


def design_widths(name):
    """Those at the size that the font is designed for."""
    return widths(name, int.from_bytes(metrics.Metrics(font_bytes(name)).part(1)[1], "big") // 16)


def put(folder, text, files=()):
    """Puts a document, other texts and the fonts into a folder."""
    knuth.put(folder, {"main.tex": text, **dict(files)})
    for name in FONTS.values():
        with open(os.path.join(folder, name + ".tfm"), "wb") as file:
            file.write(font_bytes(name))


def plain(marked):
    """A document without its marks."""
    shapes = lambda found: "\\parshape=%d %s\\relax " % (len(found[1].split()) // 2, found[1])
    return re.sub(f"{SHAPE}(.*?){END_SHAPE}", shapes, marked).replace(END, "")


def shown(marked):
    """A document that shows its paragraphs."""
    told = re.sub(f"{SHAPE}(.*?){END_SHAPE}", lambda found: "%s\\def\\shape{%s}" % (found[0], found[1]), marked)
    # An adjustment leaves the list and a penalty divides the line: in their places stand what does neither, and breaks the same lines.
    told = re.sub(r"\\vadjust\{[^{}]*\}", r"\\special{}", told).replace("\\penalty-10000 ", "\\penalty%d " % breaking.FORCING)
    return plain(told.replace(END, breaking.TOLD)).replace("\n", "\n" + breaking.SHOWN + "\n", 1)


def paragraphs_of(folder, marked, files=()):
    """The paragraphs of a document, as `breaking.py` reads them."""
    put(folder, shown(marked), files)
    return breaking.paragraphs_of(knuth.log_of(folder), {name: design_widths(font) for name, font in FONTS.items()})


def lines_by_rules(paragraphs):
    """The characters of each line that has some."""
    found = []
    for params, items, hyphenated, _ in paragraphs:
        whole, places, *_ = breaking.breaks(items, hyphenated, params)
        found += whole.lines(places)
    return found


def why_others(paragraphs, lines):
    """For what Knuth's TeX may set these lines, where the rules tell others; nothing where it may not."""
    as_knuth = [(params, items, hyphenated, hyphenated) for params, items, _, hyphenated in paragraphs]
    if lines_by_rules(as_knuth) == lines:
        return "texts at hyphens"
    others = set()
    for params, items, hyphenated, _ in paragraphs + as_knuth:
        _, places, total, forced = breaking.breaks(items, hyphenated, params)
        ties = breaking.breaks(items, hyphenated, params, breaking.earlier)[1] != places
        others |= {kind for kind, is_so in [("equal demerits", ties), ("a forced line", forced), ("demerits past the limit", total >= AWFUL)] if is_so}
    return " or ".join(sorted(others))


def lines_on(page):
    """The characters of each line of a page, by their height on it."""
    return [tuple(letter for _, letter, _, _ in line) for _, line in itertools.groupby(page, key=lambda it: it[3])]


def lines_of(dvi):
    """Those of a file."""
    return [line for page in dvi.characters for line in lines_on(page)]


def file_of(folder, name):
    path = os.path.join(folder, name)
    if not os.path.exists(path):
        return None
    with open(path, "rb") as file:
        return Dvi(file.read(), widths)


def near(one, other):
    """Whether lists of places, sizes and else are the same, places and sizes 1sp off at most."""
    return len(one) == len(other) and all(
        type(mine) is type(theirs) and (abs(mine - theirs) < 2 if isinstance(mine, int) else near(mine, theirs) if isinstance(mine, tuple) else mine == theirs)
        for mine, theirs in zip(one, other))


def page_difference(mine, theirs, at):
    """Where a page of two files differs, nothing where it doesn't."""
    for what, ours, knuths in [("pages", mine.pages, theirs.pages), ("characters", mine.characters, theirs.characters)]:
        one, other = [list(pages[at][1] if what == "pages" else pages[at]) for pages in (ours, knuths)]
        if not near(one, other):
            where = next((where for where, pair in enumerate(zip(one, other)) if not near(*pair)), min(len(one), len(other)))
            return f"page {at + 1}, {what} from {where + 1} on: {one[where:where + 2]}, Knuth's TeX {other[where:where + 2]}"
    return None


def difference(mine, theirs):
    """Where two files differ, nothing where they don't."""
    for at in range(min(len(mine.pages), len(theirs.pages))):
        if found := page_difference(mine, theirs, at):
            return found
    if not near(mine.specials, theirs.specials):
        return f"specials {mine.specials}, Knuth's TeX {theirs.specials}"
    if (mine.defined, mine.used) != (theirs.defined, theirs.used):
        return f"fonts {mine.defined} {mine.used}, Knuth's TeX {theirs.defined} {theirs.used}"
    return None if mine.post == theirs.post else f"sizes {mine.post}, Knuth's TeX {theirs.post}"


def may_have_other_lines(folder, text):
    """Whether Knuth's TeX, as it traces the paragraphs of a document, takes breaks whose demerits others have too, or lines that don't
    fit; where \\looseness is set, whether any lines that it may take are such."""
    knuth.write_main(folder, text.replace("\n", "\\tracingparagraphs=1\n", 1))
    log = knuth.log_of(folder, "-halt-on-error") or ""
    knuth.write_main(folder, text)
    breaks, reached, passed, last = {}, [], False, False
    for line in log.splitlines():
        if found := re.match(r"@(\S*) via @@(\d+) b=\S+ p=\S+ d=(\S+)", line):
            # lines to one break stand before the best ones of them
            if found[3] == "*":
                return True
            reached = [] if passed else reached
            breaks = {} if passed and last else breaks
            passed, last = False, found[1] == "\\par"
            reached.append(breaks.get(int(found[2]), (0, False))[0] + int(found[3]))
        elif found := re.match(r"@@(\d+): line \S+ t=(-?\d+) -> @@(\d+)", line):
            number, total, before = map(int, found.groups())
            breaks[number] = total, reached.count(total) > 1 or breaks.get(before, (0, False))[1]
            passed = True
            if last and ("\\looseness" in text or total == min(reached)) and breaks[number][1]:
                return True
        elif re.match(r"@\w+pass$", line):
            breaks = {}
    return False


def dvitype_complaint(folder):
    """What dvitype says against our file."""
    if not shutil.which("dvitype"):
        return None
    said = subprocess.run(["dvitype", "-output-level=4", "a.dvi"], cwd=folder, capture_output=True, text=True, errors="replace")
    bad = re.search(r"^[^\[].*(Bad DVI|invalid|illegal|already|not loaded|match|should be|not empty|undefined|bad font|checksum|TFM).*$", said.stdout + said.stderr, re.M)
    return f"dvitype: {said.returncode} {bad and bad[0]}" if said.returncode or bad else None


def files_complaint(folder, mine, other):
    """What is wrong with our file beside that of Knuth's TeX, if either is there."""
    if mine is None or other is None:
        return None if mine is other else f"files {mine}, Knuth's TeX {other}"
    if len(mine.pages) != len(other.pages):
        return f"{len(mine.pages)} pages, Knuth's TeX {len(other.pages)}"
    return difference(mine, other) or dvitype_complaint(folder)


def compared(folder, marked, said, log, told, files=()):
    """What is wrong with what the program made of a document; where Knuth's TeX sets other lines, as it may, `told` counts for what."""
    theirs, counts = knuth.knuths(folder), knuth.counts(folder, "main.dvi")
    if theirs is None or theirs[1]:
        return f"Knuth's TeX {theirs}"
    mine, other = file_of(folder, "a.dvi"), file_of(folder, "main.dvi")
    with tempfile.TemporaryDirectory() as beside:
        paragraphs = paragraphs_of(beside, marked, files)
    lines = lines_by_rules(paragraphs)
    if mine is None and said is not None:
        return f"it said {said!r} and wrote no file"
    if lines != lines_of(other):
        kind = why_others(paragraphs, lines_of(other))
        if not kind:
            return "Knuth's TeX and breaking.py set other lines"
        told[kind] += 1
        return None if mine is None or lines == lines_of(mine) else "lines other than the rules tell"
    if mine is None:
        return None
    complaint = knuth.compare({"main.tex": plain(marked), **dict(files)}, said, log, theirs, knuth.counts(folder, "a.dvi"), counts, whole=True)
    return complaint or difference(mine, other) or dvitype_complaint(folder)
