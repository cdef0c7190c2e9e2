"""Books of English text in cmr10, for tools/bench-book and tools/bench-edits."""
import random

START = """\\catcode`\\{=1 \\catcode`\\}=2 \\batchmode \\hbadness=10000 \\vbadness=10000 \\hfuzz=100pt \\vfuzz=100pt \\font\\f=cmr10 \\f \\hyphenchar\\f=-1
\\hsize=345pt \\vsize=550pt \\topskip=10pt \\maxdepth=4pt \\splittopskip=10pt \\splitmaxdepth=4pt \\boxmaxdepth=16383pt \\maxdeadcycles=25
\\pretolerance=100 \\tolerance=10000 \\linepenalty=10 \\adjdemerits=10000 \\clubpenalty=150 \\widowpenalty=150 \\interlinepenalty=0
\\parfillskip=0pt plus 1fil \\parindent=20pt \\parskip=0pt plus 1pt \\baselineskip=12pt \\lineskip=1pt \\floatingpenalty=20000
\\count100=1000 \\dimen100=200pt \\skip100=12pt plus 4pt minus 4pt \\count0=1
"""
OUTPUT = """\\output={\\shipout\\vbox{\\hbox to\\hsize{\\topmark\\hfil\\firstmark\\hfil\\number\\count0}\\kern12pt\\box255 \\ifvoid100 \\else
\\vskip\\skip100 \\hrule width 100pt \\unvbox100 \\fi}\\global\\advance\\count0 by 1 }
"""
ENGLISH = """the of and a to in is you that it he was for on are as with his they at be this have from or one had by word but not what all were we
when your can said there use an each which she do how their if will up other about out many then them these so some her would make like him into
time has look two more write go see number no way could people my than first water been call who oil its now find long down day did get come
made may part paragraph between enough almost always something important children example together country father mountain""".split()
# So many paragraphs of so many words make a page, or a little less, and every third one has a footnote of so many.
PARAGRAPHS, WORDS, NOTE = 6, 90, 25


def text(draw, words):
    """Some words, twenty a line."""
    found = [draw.choice(ENGLISH) for _ in range(words)]
    return "\n".join(" ".join(found[at:at + 20]) for at in range(0, words, 20))


def paragraph(draw, number, notes, alone):
    """A paragraph with its mark and its footnote, or both without what is for pages."""
    words = text(draw, draw.randrange(WORDS // 2, WORDS * 3 // 2))
    note = "\\noindent %d %s" % (number, text(draw, draw.randrange(NOTE // 2, NOTE * 3 // 2))) if notes and number % 3 == 0 else ""
    if alone:
        return "\\setbox0\\vbox{%s\\par}" % words + (note and "\\setbox0\\vbox{%s\\par}" % note) + "\n"
    return "\\mark{section %d}%s%s\n\n" % (number, words, note and "\\insert100{\\interlinepenalty=100 %s\\par}" % note)


def book(pages, output=OUTPUT, notes=True, alone=False):
    """A book of about so many pages."""
    draw = random.Random(1986)
    made = [paragraph(draw, number, notes, alone) for number in range(pages * PARAGRAPHS)]
    return START + output + "".join(made) + ("" if alone else "\\vfill\\penalty-10000 ") + "\\end\n"
