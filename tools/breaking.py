"""Line breaking by its rules, read once more: the breaks of a paragraph with the least demerits, or, of as many lines as \\looseness asks
for, the best ones, for check-paragraphs and check-english.

A list is taken as Knuth's TeX shows it by \\showlists, where the paragraph ends; the parameters are those of a message beside it, and
the list with its words hyphenated is what stands in the one endless line that the paragraph is ended as. Of that, a kern at a place is
the no-break text. Of chains of breaks with equal demerits the one wins whose places, line numbers and classes are greatest, the last
line first; and where no line fits in the last pass, the lines of all candidates that die there are taken, without demerits.
"""
import re
from dataclasses import dataclass, field, replace
from fractions import Fraction

ORDERS = ["", "fil", "fill", "filll"]
NUMBERS = "pretolerance tolerance linepenalty hyphenpenalty exhyphenpenalty adjdemerits doublehyphendemerits finalhyphendemerits hangafter prevgraf looseness".split()
SIZES = "hsize hangindent emergencystretch".split()
GLUES = "leftskip rightskip parfillskip".split()
# Begins a document that shows its paragraphs.
SHOWN = "\\showboxbreadth=100000 \\showboxdepth=3 \\def\\shape{}"
# Ends a paragraph: a message of the parameters, its list, and the list of its one line, which nothing breaks.
TOLD = (
    "\\message{|=" + ";".join("\\the\\" + name for name in NUMBERS + SIZES + GLUES) + ";\\shape=|}\\showlists"
    "{\\pretolerance=-1 \\tolerance=-1 \\emergencystretch=0pt \\looseness=0 \\hsize=16383pt \\hangindent=0pt \\parshape=0 \\leftskip=0pt \\rightskip=0pt \\par}"
    "\\setbox200\\lastbox\\showbox200 \\par\\def\\shape{}"
)
# Stands for the penalty that forces a break, which would divide the line.
FORCING = -9999
VERY_LOOSE, LOOSE, DECENT, TIGHT = range(4)
OVERFULL = None


@dataclass(frozen=True)
class Item:
    """An item of a list: what it is, its sizes, and the characters that it sets; of a discretionary those before and behind a break,
    and how many of the items behind it are its text where no line ends there."""
    kind: str
    width: int = 0
    stretch: tuple = (0, 0)
    shrink: tuple = (0, 0)
    penalty: int = 0
    text: tuple = ()
    before: tuple = ()
    behind: tuple = ()
    replaced: int = 0


def scaled(text):
    """A size in points in sp, as TeX reads back what it prints."""
    size = abs(Fraction(text)) * 65536
    whole = int(size + Fraction(1, 2))
    return -whole if text.startswith("-") else whole


def with_order(text):
    number, order = re.fullmatch(r"(-?[\d.]+)(?:pt)?(fil+)?", text).groups()
    return scaled(number), ORDERS.index(order or "")


def glue_of(text):
    """The glue that a text tells."""
    width, stretch, shrink = re.fullmatch(r"(-?[\d.]+)(?:pt)?(?: plus (\S+))?(?: minus (\S+))?", text).groups()
    return Item("glue", scaled(width), with_order(stretch or "0.0"), with_order(shrink or "0.0"))


def shape_of(text):
    """The lines that \\parshape tells, each its width."""
    sizes = [scaled(word.removesuffix("pt")) for word in text.split()]
    return sizes[1::2]


def parameters(text):
    """The parameters that the message tells."""
    *values, shape = text.split(";")
    readers = [int] * len(NUMBERS) + [lambda told: scaled(told.removesuffix("pt"))] * len(SIZES) + [glue_of] * len(GLUES)
    return {"shape": shape_of(shape)} | {name: read(value) for name, read, value in zip(NUMBERS + SIZES + GLUES, readers, values)}


def code_of(shown):
    """The code of a character as a log shows it."""
    if shown.startswith("^^") and len(shown) > 2:
        return ord(shown[2]) ^ 64 if len(shown) == 3 else int(shown[2:], 16)
    return ord(shown)


def item_of(line, widths):
    """The item that a line shows; the widths are those of the characters of each font's name."""
    if found := re.match(r"\\glue(?:\(\\\w+\))? (.*)$", line):
        return glue_of(found[1])
    if found := re.match(r"\\(?:c|x)?leaders (.*)$", line):
        return replace(glue_of(found[1]), kind="glue")
    if found := re.match(r"\\kern( ?)(-?[\d.]+)$", line):
        return Item("kern" if found[1] else "solid", scaled(found[2]))
    if found := re.match(r"\\penalty (-?\d+)$", line):
        return Item("penalty", penalty=-10000 if int(found[1]) == FORCING else int(found[1]))
    if found := re.match(r"\\(?:[hv]box|rule)\(\S*\)x(-?[\d.]+)", line):
        return Item("solid", scaled(found[1]))
    if found := re.match(r"\\discretionary(?: replacing (\d+))?$", line):
        return Item("discretionary", replaced=int(found[1] or 0))
    if line.startswith("\\special"):
        return Item("solid")
    font, shown = re.match(r"\\(\w+) (\S+)", line).groups()
    return Item("solid", widths[font][code_of(shown)], text=(code_of(shown),))


def with_line(items, line, widths):
    """Items with the one that a line shows, or with its characters in the box that stands last."""
    if line[0] not in ".|":
        return [*items, item_of(line, widths)]
    return [*items[:-1], replace(items[-1], text=items[-1].text + item_of(line[1:], widths).text)]


def items_of(shown, widths):
    """The items of a list as \\showlists shows it, with the characters of boxes in it."""
    items = []
    for line in shown:
        if line[0] in ".|" and items[-1].kind == "discretionary":
            side = "before" if line[0] == "." else "behind"
            items[-1] = replace(items[-1], **{side: tuple(with_line(getattr(items[-1], side), line[1:], widths))})
        elif line[1:2] not in (".", "|") or line[0] not in ".|":
            items[-1:] = with_line(items[-1:], line, widths)
    return items


def divided(item, whole):
    """What stands for a place and the items that it has where no line ends, if it is a seam: where both sides stand in these as they are,
    with a kern or nothing between. Before a break there is a hyphen behind the one side, unless its font has none."""
    right = list(item.behind)
    for left in [list(item.before[:-1]), list(item.before)]:
        middle = whole[len(left):len(whole) - len(right)]
        if whole == left + middle + right and all(it.kind == "solid" and not it.text for it in middle):
            return [*left, replace(item, before=item.before[len(left):], behind=(), replaced=len(middle)), *middle, *right]
    return None


def parted_at_kerns(items, given):
    """A hyphenated list, in which a kern at a place is the text of its discretionary; those at places within ligatures and the
    discretionaries of the list that was given stay as they are."""
    texts = [(it.before, it.behind) for it in given if it.kind == "discretionary" and it.replaced]
    made, at = [], 0
    while at < len(items):
        item = items[at]
        at += 1
        if not item.replaced:
            made.append(item)
        elif (item.before, item.behind) in texts:
            texts.remove((item.before, item.behind))
            made.append(item)
        else:
            whole = items[at:at + item.replaced]
            at += item.replaced
            made += divided(item, whole) or [item, *whole]
    return made


def paragraphs_of(log, widths):
    """The parameters of each paragraph of a log, its list, this with its words hyphenated, and the same as Knuth's TeX has it."""
    pattern = r"\|=(-?\d[^|]*)=\|.*?\n### horizontal mode entered[^\n]*\n(.*?)spacefactor.*?\n> \\box200=(.*?)\n\n"
    found = []
    for told, lines, line in re.findall(pattern, log, re.S):
        items = items_of(filter(None, lines.split("\n")), widths)
        if items:
            # (without its box, and without the end that the list gets)
            knuths = items_of([it[1:] for it in line.split("\n")[2:-3]], widths)
            knuths += [items[-1]] if items[-1].kind == "glue" else []
            found.append((parameters(told), items, parted_at_kerns(knuths, items), knuths))
    return found


def ended(items, params):
    """A list with its end: without its last glue, and with a penalty, \\parfillskip and the break that has to be taken."""
    whole = items[:-1] if items and items[-1].kind == "glue" else list(items)
    return whole + [Item("penalty", penalty=10000), params["parfillskip"], Item("penalty", penalty=-10000)]


def badness(size, total):
    if size == 0:
        return 0
    if total <= 0:
        return 10000
    ratio = 297 * size // total if size <= 7230584 else size // (total // 297) if total >= 1663497 else size
    return 10000 if ratio > 1290 else (ratio ** 3 + 131072) // 262144


def line_width(params, number):
    """The width of a line by its number, from 1 on."""
    number += params["prevgraf"]
    if params["shape"]:
        return params["shape"][min(number, len(params["shape"])) - 1]
    hang, after = params["hangindent"], params["hangafter"]
    hangs = number > after if after >= 0 else number <= -after
    return params["hsize"] - (abs(hang) if hangs else 0)


@dataclass
class List:
    """An ended list, with the sums of its sizes before each place, the places in texts of discretionaries, and the sizes of lines so far."""
    items: list
    params: dict
    sums: list = field(default_factory=list)
    inside: set = field(default_factory=set)
    skips: list = field(default_factory=list)
    known: dict = field(default_factory=dict)

    def __post_init__(self):
        self.skips = self.with_sizes(self.with_sizes([0] * 6, self.params["leftskip"]), self.params["rightskip"])
        self.inside = {place + k + 1 for place, item in enumerate(self.items) for k in range(item.replaced)}
        sums = [0] * 6
        for item in self.items + [None]:
            self.sums.append(sums)
            sums = sums if item is None else self.with_sizes(sums, item)

    def with_sizes(self, sums, item):
        sums = list(sums)
        sums[0] += item.width
        sums[1 + item.stretch[1]] += item.stretch[0]
        sums[5] += item.shrink[0]
        return sums

    def penalty(self, place):
        """The penalty of the break at a place, None where none is legal."""
        item, solid = self.items[place], ("solid", "discretionary")
        if place in self.inside:
            return None
        if item.kind == "glue":
            return 0 if 0 < place and (self.items[place - 1].kind in solid or place - 1 in self.inside) else None
        if item.kind == "kern":
            return 0 if self.items[place + 1].kind == "glue" else None
        penalty = item.penalty
        if item.kind == "discretionary":
            penalty = self.params["hyphenpenalty" if item.before else "exhyphenpenalty"]
        elif item.kind != "penalty":
            return None
        return penalty if penalty < 10000 else None

    def start(self, place):
        """Where the line behind a break begins."""
        if place is None:
            return 0
        start = place + 1 + self.items[place].replaced
        if not self.items[place].behind:
            while start < len(self.items) and self.items[start].kind in ("glue", "kern", "penalty"):
                start += 1
        return start

    def at_ends(self, start, place):
        """The items that a line has at its ends by the breaks there."""
        return (() if start is None else self.items[start].behind), self.items[place].before

    def sizes(self, start, place):
        """A line's width, stretch of each order and shrink."""
        if (start, place) not in self.known:
            first = min(self.start(start), place)
            sums = [one - other + more for one, other, more in zip(self.sums[place], self.sums[first], self.skips)]
            for item in sum(self.at_ends(start, place), ()):
                sums = self.with_sizes(sums, item)
            self.known[start, place] = sums
        return self.known[start, place]

    def fit(self, start, place, number, more):
        """The badness and class of a line between breaks that may stretch by so much more."""
        sums = self.sizes(start, place)
        lacks = line_width(self.params, number) - sums[0]
        if lacks > 0:
            if any(sums[2:5]):
                return 0, DECENT
            bad = badness(lacks, sums[1] + more)
            return bad, VERY_LOOSE if bad > 99 else LOOSE if bad > 12 else DECENT
        if -lacks > sums[5]:
            return OVERFULL, TIGHT
        bad = badness(-lacks, sums[5])
        return bad, TIGHT if bad > 12 else DECENT

    def demerits(self, before, place, penalty, bad, kind):
        """Those of the line from a candidate to a break."""
        params, size = self.params, abs(self.params["linepenalty"] + bad)
        total = min(size, 10000) ** 2
        total += penalty ** 2 if penalty > 0 else -penalty ** 2 if penalty > -10000 else 0
        total += params["adjdemerits"] if abs(before[2] - kind) > 1 else 0
        if before[0] is not None and self.items[before[0]].kind == "discretionary":
            last = place == len(self.items) - 1
            total += params["finalhyphendemerits"] if last else params["doublehyphendemerits"] if self.items[place].kind == "discretionary" else 0
        return total

    def line(self, start, place):
        """The characters of a line."""
        behind, before = self.at_ends(start, place)
        items = [*behind, *self.items[min(self.start(start), place):place], *before]
        return tuple(code for item in items for code in item.text)

    def lines(self, places):
        """Those between breaks, where they have a character."""
        return [line for one, other in zip(places, places[1:]) if (line := self.line(one, other))]


def chains(whole, tolerance, more, last, beats):
    """The best chain to each candidate at the end: candidates are a place, a number of lines and a class; a chain is its demerits,
    its steps from the last one backwards, and whether a line was forced."""
    living = {(None, 0, DECENT): (0, (), False)}
    for place in range(len(whole.items)):
        penalty = whole.penalty(place)
        if penalty is None:
            continue
        fits = {it: whole.fit(it[0], place, it[1] + 1, more) for it in living}
        taken = {it: fit for it, fit in fits.items() if fit[0] is not OVERFULL and fit[0] <= tolerance}
        dead = [it for it in living if penalty <= -10000 or fits[it][0] is OVERFULL]
        forced = last and not taken and len(dead) == len(living)
        new = {}
        for it in living if forced else taken:
            bad, kind = fits[it]
            end, (total, steps, was) = (place, it[1] + 1, kind), living[it]
            chain = total + (0 if forced else whole.demerits(it, place, penalty, bad, kind)), (*end, *steps), was or forced
            if end not in new or beats(chain, new[end]):
                new[end] = chain
        for it in dead:
            del living[it]
        living |= new
    return list(new.values())


def later(chain, other):
    """Whether a chain beats another one."""
    return (-chain[0], chain[1]) > (-other[0], other[1])


def earlier(chain, other):
    """The same where of chains with equal demerits the other one wins."""
    return (-chain[0], other[1]) > (-other[0], chain[1])


def best_of(found, beats):
    """The one of some chains that beats all others."""
    best = found[0]
    for chain in found[1:]:
        if beats(chain, best):
            best = chain
    return best


def line_count(chain):
    """How many lines a chain has: the number of its last one."""
    return chain[1][1]


def asked_for(found, looseness, beats):
    """Of the chains of a pass the one that is taken by \\looseness, and whether it has as many lines as are asked for: of the line counts
    from that of the best chain up or down to that number the nearest to it is taken, and of the chains of this count the best one."""
    lines = line_count(best_of(found, beats))
    asked = lines + looseness
    counts = [count for count in map(line_count, found) if min(lines, asked) <= count <= max(lines, asked)]
    nearest = min(counts, key=lambda count: abs(asked - count))
    return best_of([chain for chain in found if line_count(chain) == nearest], beats), nearest == asked


def breaks(items, hyphenated, params, beats=later):
    """What breaks a paragraph with this list, and hyphenated this one: the list that was broken, with its end, the places of the breaks
    behind that of its beginning, their demerits, and whether a line was forced."""
    emergency = max(params["emergencystretch"], 0)
    first, second = [List(ended(it, params), params) for it in (items, hyphenated)]
    passes = [(first, params["pretolerance"], 0, False)] if params["pretolerance"] >= 0 else []
    passes += [(second, params["tolerance"], 0, emergency == 0)] + ([(second, params["tolerance"], emergency, True)] if emergency else [])
    for whole, tolerance, more, last in passes:
        found = chains(whole, tolerance, more, last, beats)
        chain, is_enough = asked_for(found, params["looseness"], beats) if found else (None, False)
        if is_enough:
            break
    return whole, [None, *reversed(chain[1][::3])], chain[0], chain[2]
