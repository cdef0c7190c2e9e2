"""Random documents of pages, and edits of them, for the checks that edit documents: of pages, boxes, groups, missing characters, macros and
conditionals, and two files that they may read."""
import re

# The files beside main.tex.
OTHERS = ["other.tex", "more.tex"]

# What edits put into a document, beside pieces of its pages.
PIECES = [
    b"", b" ", b"\n", b"\n\n", b"%", b"%\n", b"{", b"}", b"\\", b"x", b"\\relax ", b"\\par ", b"\\undefined ", b"\\end ",
    b"\\kern 3pt", b"\\kern -20pt ", b"\\vrule", b"\\hbox{", b"\\hbox{y}", b"\\shipout", b"\\shipout\\hbox{z}\n", b"3", b"-",
    b"\\catcode`z=13 ", b"\\catcode`x=9 ", b"\\catcode`\\%=12 ", b"\\catcode32=12 ", b"^^41", b"\r\n", b"\x7f", b"\x00", b"pt",
    b"{\\catcode`y=14 ", b"\\catcode`\\^=7 ",
]
# What is put in beside these where there are macros.
PIECES_OF_MACROS = [
    b"\\input other ", b"\\input more\n", b"\\input none ", b"\\endinput", b"\\p", b"\\p7",
    b"\\def\\p#1{", b"\\def\\p#1{\\q{#1}}", b"\\iffalse ", b"\\iftrue ", b"\\ifnum\\n<3 ", b"\\else ", b"\\fi ", b"\\message{m}",
    b"\\advance\\n1 ", b"\\aftergroup\\q", b"\\expandafter", b"\\csname p\\endcsname5", b"\\edef\\p{\\number\\n}",
]

# Macros that documents begin with, and what uses them.
MACROS = b"\\catcode`\\#=6 \\countdef\\n=5 \\def\\q#1{\\hbox{\\vrule width #1pt}}\\def\\p#1{\\message{page #1}\\shipout\\q{#1}}\n"
USES = [
    b"\\p{%d}", b"\\p{%d}\n", b"\\advance\\n1 \\p{%d}\n", b"\\message{\\number\\n}\\p{%d}", b"\\ifnum\\n<%d \\p{1}\\else\\p{2}\\fi\n", b"{\\n=%d \\p\\n}\n",
    b"\\def\\r{\\p{%d}}\\r\n", b"{\\def\\q#1{\\hbox{\\kern#1sp}}\\p{%d}}", b"\\uppercase{\\p{%d}}", b"\\input other \\p{%d}", b"\\input more\n\\p{%d}\n", b"\\edef\\r{\\number%d}\\p\\r\n",
]


def page(draw, macros=False):
    """One page of a document: a line or a few; by macros, where there are some."""
    if macros and draw.random() < 0.6:
        return draw.choice(USES) % draw.randrange(1, 9)
    items = []
    for _ in range(draw.randrange(1, 5)):
        items.append(draw.choice([
            b"\\vrule width %dpt height 2pt depth 0pt" % draw.randrange(9), b"\\vrule", b"\\kern %dsp " % draw.randrange(-9999, 99999),
            b"a", b"bc ", b"\n", b"{d}", b"{\\catcode`e=9 e}e", b"\\hbox{\\vrule height %dpt}" % draw.randrange(9), b"%f\n", b"\\relax ",
        ]))
    if draw.random() < 0.06:
        items.append(b"\\relax" * 70 + b" ")
    behind = draw.choice([b"", b"", b"\n", b"\\relax\n", b"{}", b"\\catcode`g=%d " % draw.randrange(9, 13), b"% a comment"])
    return b"\\shipout\\hbox{" + b"".join(items) + b"}" + behind + draw.choice([b"\n", b"\n", b"\n", b"\r\n", b""])


def document(draw):
    start = b"\\catcode`\\{=1 \\catcode`\\}=2" + draw.choice([b"\n", b" ", b"\\catcode`\\^=7\n"])
    macros = draw.random() < 0.3
    start += MACROS * macros
    end = draw.choice([b"\\end\n"] * 6 + [b"\\end", b"", b"\n", b"\\end\nnever read\n", b"\\undefined\n", b"\n\n{\n"])
    return start + b"".join(page(draw, macros) for _ in range(draw.choice([draw.randrange(9)] + [draw.randrange(14, 32)] * 5))) + end


def edit_of_a_page(draw, old):
    """An edit after which the pages behind it mostly come out as before: its place, how much is taken out, what is put in."""
    starts = [found.start() for found in re.finditer(rb"\\shipout|\\p(?=[\d{])|\\input", old)] + [len(old)]
    number = draw.randrange(len(starts))
    start, end = starts[number], starts[min(number + 1, len(starts) - 1)]
    digits = [at for at in range(start, end) if old[at:at + 1].isdigit()]
    what = draw.choice(["digit", "digit", "in", "out", "move", "double", "blank"])
    if what == "digit" and digits:
        return draw.choice(digits), 1, b"%d" % draw.randrange(1, 30)
    if what == "out":
        return start, end - start, b""
    if what == "move" and end < len(old):
        behind = starts[min(number + 2, len(starts) - 1)]
        return start, behind - start, old[end:behind] + old[start:end]
    if what == "double":
        return start, 0, old[start:end]
    return start, 0, page(draw) if what == "in" else draw.choice([b" ", b"%\n", b"\\relax\n"])


def edit(draw, files):
    """A random edit: a name, a place, how much is taken out, what is put in."""
    name = draw.choice(["main.tex"] * 8 + OTHERS)
    old = files.get(name, b"")
    if draw.random() < 0.95:
        return name, *edit_of_a_page(draw, old)
    place = draw.choice([draw.randrange(len(old) + 1), draw.randrange(len(old) + 1), len(old), max(0, len(old) - 5)])
    starts = [0] + [at + 1 for at, byte in enumerate(old) if byte == 10]
    if draw.random() < 0.4:
        place = draw.choice(starts)
    removed = draw.choice([0, 0, 1, draw.randrange(60), len(old) - place])
    if draw.random() < 0.85:
        removed = min(removed, len(old) - place)
    if draw.random() < 0.05:
        place = len(old) + draw.randrange(1, 9)
    pieces = PIECES + PIECES_OF_MACROS * (MACROS in files.get("main.tex", b""))
    put = draw.choice([draw.choice(pieces), draw.choice(pieces), page(draw), old[place:place + removed]])
    return name, place, removed, put


def edited(files, name, place, removed, put):
    """The files after an edit, and the length of its file where it goes past that file's end."""
    old = files.get(name, b"")
    if place + removed > len(old):
        return files, len(old)
    return dict(files, **{name: old[:place] + put + old[place + removed:]}), None


def change(draw, files):
    """A random edit, or a file that is taken away: its name, and nothing else."""
    if draw.random() < 0.05:
        return draw.choice(OTHERS), None, 0, b""
    return edit(draw, files)


def changed(files, name, place, removed, put):
    """The files after a change, and the length of its file where it goes past that file's end."""
    if place is None:
        return {other: data for other, data in files.items() if other != name}, None
    return edited(files, name, place, removed, put)


def made_again(draw, files):
    """A file that is taken away, alone or with an edit that makes it again, as it was or with a page that is changed."""
    name = draw.choice(["main.tex"] * 2 + OTHERS)
    old = files.get(name, b"")
    if draw.random() < 0.2:
        return [(name, None, 0, b"")]
    place, removed, put = edit_of_a_page(draw, old) if draw.random() < 0.5 else (0, 0, b"")
    return [(name, None, 0, b""), (name, 0, 0, old[:place] + put + old[place + removed:])]


def changes(draw, files):
    """One random change, or a few, each of the files as those before it leave them."""
    if draw.random() < 0.06:
        return made_again(draw, files)
    made = []
    for _ in range(draw.choice([1, 1, 1, draw.randrange(2, 5)])):
        made.append(change(draw, files))
        files, _ = changed(files, *made[-1])
    return made


def together(files, made):
    """The files after changes; as they were where one is outside, and then its number and the length of its file."""
    now = files
    for number, one in enumerate(made, 1):
        now, outside = changed(now, *one)
        if outside is not None:
            return files, (number, outside)
    return now, None


def edits(draw, files):
    """A list of edits: the changes of each, whether it is a batch, the files after it and what was outside; some take the last one
    back, as each does that finds no main file."""
    found, taken_back = [], None
    for _ in range(draw.randrange(1, 9)):
        made = [taken_back] if taken_back and ("main.tex" not in files or draw.random() < 0.3) else changes(draw, files)
        batch = len(made) > 1 or draw.random() < 0.05
        name, place, removed, put = made[0]
        old = files.get(name, b"")
        files, outside = together(files, made)
        taken_back = None
        if len(made) == 1 and outside is None:
            taken_back = (name, 0, 0, old) if place is None else (name, place, len(put), old[place:place + removed])
        found.append((made, batch, files, outside))
    return found


def text_of(name, place, removed, put):
    """A change as a command."""
    if place is None:
        return b"remove %s\n" % name.encode()
    return b"edit %d %d %d %s\n%s\n" % (place, removed, len(put), name.encode(), put)


def command_of(made, batch):
    return b"batch %d\n" % len(made) * batch + b"".join(text_of(*one) for one in made)
