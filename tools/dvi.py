"""DVI files of characters, rules and specials, for the checks that compare pages; what `vortex list` says of them, and by which registers
the movements of `vortex run` go."""
import collections
import os
import subprocess

# The movements by their codes: the axis, the register, if there is one, and how many bytes say how far.
MOVEMENTS = {
    code + size: (axis, register, size)
    for code, axis, register in ((142, "h", None), (147, "h", "w"), (152, "h", "x"), (156, "v", None), (161, "v", "y"), (166, "v", "z"))
    for size in range(0 if register else 1, 5)
}
# The codes of w0, x0, y0 and z0.
REGISTERS = {register: code for code, (_, register, size) in MOVEMENTS.items() if size == 0}


def signed(data):
    return int.from_bytes(data, "big", signed=True)


class Dvi:
    """A DVI file by its meaning: its magnification and text, for each page its counts and rules at absolute places; the
    characters of each page with their fonts and places, the specials of all pages, with their places; the postamble's sizes, and
    its fonts, with the pages at which they are defined; and what `vortex list` says of what is met, a line for each thing.
    `widths(name, size)` gives the widths of a font by its characters."""

    def __init__(self, data, widths=None):
        self.data, self.at, self.pages, self.specials, self.post = data, 0, [], [], None
        self.widths, self.fonts, self.defined, self.characters, self.lines = widths, {}, [], [], []
        self.magnification, self.text = data[10:14], data[15:15 + data[14]]
        self.at = 15 + data[14]
        while self.data[self.at] != 248:
            self.page()
        self.at += 1 + 4 + 12
        self.post = [self.take(4), self.take(4), self.take(2)]
        self.at += 2
        self.used = []
        while self.data[self.at] != 249:
            self.used.append(self.definition(self.byte()))

    def take(self, size):
        self.at += size
        return signed(self.data[self.at - size:self.at])

    def page(self):
        self.at += 1
        counts = [self.take(4) for _ in range(10)]
        self.take(4)
        self.lines.append("page %d: %s" % (len(self.pages) + 1, " ".join(map(str, counts))))
        state, stack, rules = dict.fromkeys("hvwxyz", 0), [], []
        font, characters = None, []
        while (code := self.byte()) != 140:
            if code in (132, 137):
                height, width = self.take(4), self.take(4)
                if height > 0 and width > 0:
                    rules.append((state["h"], state["v"], height, width))
                    self.tell("rule %d %d" % (height, width), state)
                if code == 132:
                    state["h"] += width
            elif code == 141:
                stack.append(dict(state))
            elif code == 142:
                state = stack.pop()
            elif 239 <= code <= 242:
                size = self.take(code - 238) % 256 ** (code - 238)
                self.tell("special %d bytes" % size, state)
                self.specials.append((len(self.pages), state["h"], state["v"], self.data[self.at:self.at + size]))
                self.at += size
            elif code <= 128:
                letter = code if code < 128 else self.byte()
                characters.append((self.fonts[font][:2], letter, state["h"], state["v"]))
                self.tell("char %d font %d" % (letter, font), state)
                state["h"] += self.fonts[font][2][letter]
            elif 171 <= code <= 235:
                font = code - 171 if code < 235 else self.byte()
                if font not in self.fonts:
                    raise ValueError(f"font {font} isn't defined")
            elif code == 243:
                known = self.definition(code)
                if known[0] in self.fonts:
                    raise ValueError(f"font {known[0]} is defined twice")
                self.fonts[known[0]] = (known[4], known[2], self.widths(known[4], known[2]))
                self.defined.append((len(self.pages), known))
            elif 143 <= code <= 170:
                self.move(state, code)
            else:
                raise ValueError(f"command {code}")
        self.pages.append((counts, rules))
        self.characters.append(characters)

    def tell(self, what, state):
        self.lines.append("%s at %d %d" % (what, state["h"], state["v"]))

    def definition(self, code):
        """What fnt_def1 says of a font: its number, checksum, size, design size and name."""
        if code != 243:
            raise ValueError(f"command {code} for a font's definition")
        number, checksum, size, design = self.byte(), self.take(4), self.take(4), self.take(4)
        length = self.byte() + self.byte()
        self.at += length
        return number, checksum, size, design, self.data[self.at - length:self.at].decode("latin-1")

    def byte(self):
        self.at += 1
        return self.data[self.at - 1]

    def move(self, state, code):
        axis, register, size = MOVEMENTS[code]
        by = self.take(size) if size else state[register]
        if register:
            state[register] = by
        state[axis] += by


def difference(what, one, other, place, apart):
    """Where two lists of things on pages differ, nothing where they don't: each of them has its place behind so many of its parts, and
    stands at most `apart` sp from the other's."""
    if len(one) != len(other):
        return f"{len(one)} {what}s, Knuth's TeX {len(other)}"
    without_place = lambda it: it[:place] + it[place + 2:]
    for at, (mine, theirs) in enumerate(zip(one, other), 1):
        if without_place(mine) != without_place(theirs) or any(apart < abs(a - b) for a, b in zip(mine[place:place + 2], theirs[place:place + 2])):
            return f"{what} {at} is {mine}, Knuth's TeX {theirs}"
    return None


def page_complaint(folder, widths=None, apart=0):
    """Where the pages of both differ, nothing where they don't. All may stand so far apart, and characters 1sp more for each one of their
    page."""
    paths = [os.path.join(folder, name) for name in ("a.dvi", "main.dvi")]
    there = [os.path.exists(path) for path in paths]
    if there != [True, True]:
        return None if there == [False, False] else f"DVI files {there}"
    mine, theirs = [Dvi(open(path, "rb").read(), widths) for path in paths]
    for number, ((counts, one), (other_counts, other)) in enumerate(zip(mine.pages, theirs.pages), 1):
        if counts != other_counts:
            return f"page {number}: {counts}, Knuth's TeX {other_counts}"
        if complaint := difference("rule", one, other, 0, apart):
            return f"page {number}: {complaint}"
    for number, (one, other) in enumerate(zip(mine.characters, theirs.characters), 1):
        if complaint := difference("character", one, other, 2, apart + len(one)):
            return f"page {number}: {complaint}"
    if complaint := difference("special", mine.specials, theirs.specials, 1, apart):
        return complaint
    if (mine.defined, mine.used) != (theirs.defined, theirs.used):
        return f"fonts {mine.defined} {mine.used}, Knuth's TeX {theirs.defined} {theirs.used}"
    return None if mine.post == theirs.post else f"sizes {mine.post}, Knuth's TeX {theirs.post}"


def command_size(data, at):
    """How many bytes the command at a place has."""
    code = data[at]
    if code in MOVEMENTS:
        return 1 + MOVEMENTS[code][2]
    if 239 <= code <= 242:
        return code - 237 + int.from_bytes(data[at + 1:at + code - 237], "big")
    if code == 243:
        return 16 + data[at + 14] + data[at + 15]
    return {128: 2, 132: 9, 137: 9, 139: 45, 235: 2}.get(code, 1)


def movement(amount, pair):
    """The movement by an amount, with two registers, of which the one that was used less recently comes first: by the one that holds it,
    and else so that the first one is set, with as few bytes as docs/FORMATS.md says."""
    for register in sorted(pair):
        if pair[register] == amount:
            return bytes([REGISTERS[register]])
    size = next((size for size in (1, 2, 3) if abs(amount) < 2 ** (8 * size - 1)), 4)
    return bytes([REGISTERS[next(iter(pair))] + size]) + amount.to_bytes(size, "big", signed=True)


def movement_complaint(data):
    """Which movement of a file isn't by the register of its axis that holds its amount, or else sets the one that was used less
    recently, as push and pop keep them; nothing where all are."""
    at, page = 15 + data[14], 0
    while data[at] != 248:
        code, end = data[at], at + command_size(data, at)
        if code == 139:
            page, stack, pairs = page + 1, [], {"h": {"w": 0, "x": 0}, "v": {"y": 0, "z": 0}}
        elif code == 141:
            stack.append({axis: dict(pair) for axis, pair in pairs.items()})
        elif code == 142:
            pairs = stack.pop()
        elif code in MOVEMENTS:
            axis, register, size = MOVEMENTS[code]
            amount = signed(data[at + 1:end]) if size else pairs[axis][register]
            if amount == 0 or data[at:end] != movement(amount, pairs[axis]):
                return f"page {page}: movement {data[at:end].hex()} at byte {at}, where the registers hold {pairs[axis]}"
            del pairs[axis][register]
            pairs[axis][register] = amount
        at = end
    return None


def listing(program, folder):
    """`list` of our file, which goes on beside what is done next; nothing where none was saved."""
    if not os.path.exists(os.path.join(folder, "a.dvi")):
        return None
    return subprocess.Popen([program, "list", "a.dvi"], cwd=folder, stdout=subprocess.PIPE, stderr=subprocess.DEVNULL)


def list_complaint(folder, asked):
    """Where a `listing` says what isn't read of our file here, where characters have no width, or which movement of it isn't as it has
    to be; nothing where all is so."""
    if not asked:
        return None
    said = asked.communicate()[0].decode("latin-1").split("\n")
    with open(os.path.join(folder, "a.dvi"), "rb") as file:
        data = file.read()
    read = [*Dvi(data, lambda name, size: collections.defaultdict(int)).lines, ""]
    if asked.returncode != 0 or said != read:
        at = next((at for at, (one, other) in enumerate(zip(said, read)) if one != other), min(len(said), len(read)))
        return f"list, status {asked.returncode}: line {at + 1} is {said[at:at + 1]}, not {read[at:at + 1]}"
    return movement_complaint(data)
