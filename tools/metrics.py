"""Font metric files, read by the rules of docs/FORMATS.md and in no other way.

`broken` names the first rule that some bytes break. It shares nothing with the program but these rules, so that both can
be compared.
"""
import functools


class Metrics:
    """The twelve lengths of a file, its words and its characters; bytes past the end count as 0."""

    def __init__(self, data):
        names = "lf lh bc ec nw nh nd ni nl nk ne np".split()
        lengths = [int.from_bytes(data[2 * k:2 * k + 2], "big") for k in range(12)]
        self.data, self.lengths = data, lengths
        for name, length in zip(names, lengths):
            setattr(self, name, length)
        sizes = [6, self.lh, self.ec - self.bc + 1, self.nw, self.nh, self.nd, self.ni, self.nl, self.nk, self.ne, self.np]
        self.starts = [sum(sizes[:k]) for k in range(len(sizes) + 1)]
        self.total = self.starts[-1]

    def word(self, place):
        return (self.data[4 * place:4 * place + 4] + bytes(4))[:4]

    def part(self, number):
        """The words of the n-th part: 0 the lengths, 1 the header, 2 the characters, up to 10, the parameters."""
        return [self.word(place) for place in range(self.starts[number], self.starts[number + 1])]

    @functools.cached_property
    def infos(self):
        """What is said of each code."""
        return {self.bc + k: word for k, word in enumerate(self.part(2))}

    @functools.cached_property
    def there(self):
        """The characters that the font has."""
        return {code for code, word in self.infos.items() if word[0] != 0}

    @functools.cached_property
    def commands(self):
        return self.part(7)

    def boundary(self):
        """The character as which programs see the right boundary."""
        commands = self.commands
        return commands[0][1] if commands and commands[0][0] == 255 else None

    def program(self, left):
        """The commands of a character's program, or, for None, of the left boundary's."""
        commands = self.commands
        if left is None:
            if not commands or commands[-1][0] != 255:
                return []
            place = 256 * commands[-1][2] + commands[-1][3]
        else:
            info = self.infos.get(left)
            if left not in self.there or info[2] % 4 != 1:
                return []
            place = info[3]
            if place < len(commands) and commands[place][0] > 128:
                place = 256 * commands[place][2] + commands[place][3]
        steps = []
        while place < len(commands):
            steps.append(commands[place])
            if commands[place][0] >= 128:
                break
            place += commands[place][0] + 1
        return steps

    def table(self):
        """What pairs meet: the first command for the second one in the program of the first one."""
        met = {}
        for left in list(self.there) + [None]:
            for step in self.program(left):
                if step[0] <= 128:
                    met.setdefault((left, step[1]), step)
        return met


def scaled(size, word):
    """A fraction of a size in sp (TeX: The Program, sections 571 and 572)."""
    alpha, z = 16, size
    while z >= 2**23:
        z, alpha = z // 2, 2 * alpha
    a, b, c, d = word
    part = ((d * z // 256 + c * z) // 256 + b * z) // (256 // alpha)
    return part - alpha * z if a else part


def widths(data, size):
    """The widths of a font's characters at a size, in sp."""
    font = Metrics(data)
    return {code: scaled(size, font.part(3)[font.infos[code][0]]) for code in font.there}


def ends(met, boundary, there, left, right):
    """Whether composing two characters ends within a thousand ligature commands; None is a boundary."""
    cursor, rest, done = left, [right], 0
    while rest:
        code = boundary if rest[0] is None else rest[0]
        command = met.get((cursor, code)) if code is not None else None
        if command is None or command[2] >= 128:
            cursor, rest = rest[0], rest[1:]
            continue
        done += 1
        if done > 1000:
            return False
        op, made = command[2], command[3]
        if op not in (0, 1, 2, 3, 5, 6, 7, 11):
            op = 0
        pieces = [cursor] * (op // 2 % 2) + [made] + [rest[0]] * (op % 2) + rest[1:]
        cursor, rest = pieces[op // 4], pieces[op // 4 + 1:]
    return True


def successors_end(infos):
    """Whether no chain of larger successors goes in a circle."""
    for start in infos:
        code, steps = start, 0
        while infos[code][2] % 4 == 2:
            code, steps = infos[code][3], steps + 1
            if steps > 256:
                return False
    return True


def command_fits(font, commands, number, there, boundary):
    skip, following, op, remainder = commands[number]
    if skip > 128:
        return 256 * op + remainder < font.nl
    if following not in there and following != boundary:
        return False
    if op < 128 and remainder not in there or op >= 128 and 256 * (op - 128) + remainder >= font.nk:
        return False
    return skip == 128 or number + skip + 1 < font.nl


def broken(data):
    """The first of the fifteen rules that a file breaks, used at 16pt; 0 for none."""
    if len(data) < 24:
        return 1
    font = Metrics(data)
    if max(font.lengths) >= 2**15:
        return 2
    if font.bc > font.ec + 1 or font.ec > 255:
        return 3
    if font.lf != font.total:
        return 4
    if len(data) < 4 * font.lf:
        return 5
    if 0 in (font.nw, font.nh, font.nd, font.ni):
        return 6
    if font.lh < 2:
        return 7
    if int.from_bytes(font.word(7), "big", signed=True) < 2**20:
        return 8
    infos, there, commands = font.infos, font.there, font.commands
    for a, b, c, _ in infos.values():
        if a >= font.nw or b // 16 >= font.nh or b % 16 >= font.nd or c // 4 >= font.ni:
            return 9
    for _, _, c, d in infos.values():
        if c % 4 == 1 and d >= font.nl or c % 4 == 3 and d >= font.ne or c % 4 == 2 and d not in infos:
            return 10
    if not successors_end(infos):
        return 10
    fractions = [word for part in (3, 4, 5, 6, 8) for word in font.part(part)] + font.part(10)[1:]
    if any(word[0] not in (0, 255) for word in fractions):
        return 11
    if any(font.part(part)[0] != bytes(4) for part in (3, 4, 5, 6)):
        return 12
    boundary = font.boundary()
    if not all(command_fits(font, commands, k, there, boundary) for k in range(len(commands))):
        return 13
    for top, middle, bottom, repeated in font.part(9):
        if repeated not in there or any(piece and piece not in there for piece in (top, middle, bottom)):
            return 14
    met = font.table()
    for left, code in met:
        for right in ([code] if code in there else []) + ([None] if code == boundary else []):
            if not ends(met, boundary, there, left, right):
                return 15
    return 0
