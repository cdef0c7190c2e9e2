"""The files that `vortex gen` makes, by what docs/FORMATS.md says of them: a program of its own, to compare with."""

OPENING = (b"\\catcode`\\{=1 \\catcode`\\}=2 \\hsize=200pt \\vsize=100pt \\parfillskip=0pt plus 1fil"
           b" \\font\\f=gen \\f\n")
ENDING = b"\n\\vfill\\penalty-10000\n"
FONT = bytes.fromhex("00280002 00610062 00020002 00010001 00010001 00000016 00000000 00a00000 01100100 01100000"
                     "00000000 00080000 00000000 00040000 00000000 00000000 80618000 00010000"
                     "00000000 00040000 00020000 00010000 00080000 00100000 00000000" + "00000000" * 14 + "00040000")


class Draws:
    """Knuth's generator for MMIX."""

    def __init__(self, seed):
        self.state = seed

    def draw(self, count):
        self.state = (6364136223846793005 * self.state + 1442695040888963407) % 2**64
        return self.state // 2**33 % count

    def letter(self):
        return b"ab"[self.draw(2):][:1]

    def word(self):
        return b"".join(self.letter() for _ in range(1 + self.draw(6)))

    def line(self):
        return b" ".join(self.word() for _ in range(10)) + b"\n"

    def page(self):
        return b"".join(self.line() for _ in range(6)) + ENDING


def made(seed, pages):
    """The files by their names."""
    draws, book, starts, script = Draws(seed), OPENING, [], b""
    for _ in range(pages):
        starts.append(len(book))
        book += draws.page()
    for _ in range(pages):
        start = starts[draws.draw(pages)]
        script += b"edit %d 1 1 book.tex\n%s\n" % (start, draws.letter())
    return {"book.tex": book + b"\\end\n", "gen.tfm": FONT, "gen.vtx": script}
