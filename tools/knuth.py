"""What the program and Knuth's TeX say of a document, and whether that is the same: for check-macros, check-plain and check-mouth.

A document's messages stand between `|*` and `*|`, so that they are found in TeX's log. What is meant to differ isn't looked
at: a message prints a parameter character once, and puts no blank behind a name that is no word. Nor are parentheses, since
that log has some of its own, around files. An error at the end of a file is said of the file that has ended and of its last
line, where Knuth's TeX has closed it and names the one that reads it. A document that meets a limit or what isn't there yet
is compared up to there.
"""
import os
import re
import resource
import signal
import subprocess

FILE = 1000000
# What takes longer counts as endless.
SECONDS = 2

# What Knuth's TeX says of each error, by our number; the first that fits is it.
ERRORS = [
    (9, "OWN|No room"),
    (1, "Text line contains an invalid character"),
    (2, "Undefined control sequence"),
    (3, "Missing number|Improper alphabetic constant"),
    (4, "Illegal unit of measure|Missing = inserted for |Incompatible glue units|Missing `to' inserted"),
    (5, r"Bad (character|register|delimiter) code|Bad (mathchar|number)\b|Invalid code|Bad space factor|Font .* has only|You can't \S{0,4}insert255"),
    (6, "Dimension too large"),
    (7, "Number too big"),
    (8, "Huge page cannot be shipped out|Arithmetic overflow"),
    (10, r"You can't use a prefix|You can't use `\S{0,4}long'|You can't use .* after "),
    (11, r"Too many }'s|Extra }, or forgotten|Extra \S{0,4}endgroup|Missing } inserted|Missing \S{0,4}endgroup inserted|(Extra|Missing) \S{0,4}right\."),
    (12, "Use of .* doesn't match"),
    (13, "Paragraph ended before "),
    (14, "Argument of .* has an extra }"),
    (15, r"Extra \S{0,4}(else|or|fi)\b"),
    (16, "Incomplete "),
    (17, "File ended while|Forbidden control sequence"),
    (18, r"Missing \{ inserted"),
    (34, r"You can't use `\S*(lastbox|unkern|unpenalty|unskip)' in vertical|Incompatible list can't be unboxed"),
    (19, "Missing control sequence inserted|Missing font identifier"),
    (21, "Font .* not load|Improper `at' size"),
    (20, "I can't find file"),
    (22, "Parameters must be numbered|You already have nine|Illegal parameter number"),
    (23, r"Missing \S{0,4}endcsname inserted|Extra \S{0,4}endcsname"),
    (24, "You can't use |Missing [$] inserted|Improper .*(prevdepth|setbox|halign)|Please use .*mathaccent"),
    (32, r"Misplaced |Missing # inserted|Only one # is|Extra alignment tab|Missing \S{0,4}cr inserted"),
    (34, "A <box> was supposed|Leaders not followed by proper glue"),
    (34, r"\S{0,4}vsplit needs a |Insertions can only be added to a vbox"),
    (27, r"\S{0,4}box255 is not void"),
    (28, "Unbalanced output routine|Output routine didn't use all of "),
    (29, "Output loop"),
    (30, "Infinite glue shrinkage "),
    (31, "Math formula deleted|Double (super|sub)script|Ambiguous; you need|Limit controls must|.* is undefined [(]character|Illegal math|Display math should end"),
    (35, "Incompatible magnification|Illegal magnification"),
    (36, "Emergency stop"),
    (39, "Missing delimiter"),
]


def ours(program, folder, names, options=(), budget=20000):
    """The line that the program says, and its transcript."""
    words = [program, "run", "--date", "2024-5-17-570", "--budget", str(budget), "--out", "a", *options, *names]
    said = subprocess.run(words, cwd=folder, capture_output=True).stdout.decode("latin-1")
    log = b""
    if os.path.exists(os.path.join(folder, "a.log")):
        with open(os.path.join(folder, "a.log"), "rb") as file:
            log = file.read()
    return said, log


def saved(folder):
    """What a run saved, which is taken away."""
    found = []
    for name in ("a.dvi", "a.log"):
        path = os.path.join(folder, name)
        found.append(open(path, "rb").read() if os.path.exists(path) else None)
        if found[-1] is not None:
            os.remove(path)
    return found


def write_main(folder, text):
    """Writes the main file, and leaves all others."""
    with open(os.path.join(folder, "main.tex"), "w", encoding="latin-1") as file:
        file.write(text)


def edit_complaint(program, folder, names, changed, script, budget):
    """What is wrong with what the program saves behind edits of its main file, nothing where that is what a fresh run makes of the file
    as the edits change it."""
    with open(os.path.join(folder, "edits"), "w", encoding="latin-1") as file:
        file.write(script)
    saved(folder)
    said, _ = ours(program, folder, names, ["--script", "edits"], budget)
    *_, last = re.findall(r"^edit \d+: (\d+ pages), resumed \d+, formatted \d+, reused \d+,( .*)", said, re.M) or [("", said)]
    behind = saved(folder)
    write_main(folder, changed)
    fresh, _ = ours(program, folder, names, [], budget)
    if fresh != f"run: {last[0]},{last[1]}\n":
        return f"behind {script!r}: {last}, a fresh run {fresh}"
    return None if behind == saved(folder) else f"behind {script!r}: other files than of a fresh run"


def shown_as_knuth(data):
    """Bytes as TeX prints them."""
    return "".join(chr(code) if 32 <= code < 127 else f"^^{chr(code ^ 64)}" if code < 128 else f"^^{code:02x}" for code in data)


def as_knuth(log):
    """A transcript as TeX's log would have it."""
    found = []
    for line in log.split(b"\n"):
        if line.startswith(b"message "):
            found.append(shown_as_knuth(line[8:]))
        elif report := re.fullmatch(rb"(overfull|underfull|loose|tight) ([hv])box (\S+)", line):
            kind, letter, much = (word.decode() for word in report.groups())
            found.append(f"{kind.capitalize()} \\{letter}box ({much} " if kind == "overfull" else f"{kind.capitalize()} \\{letter}box (badness {much})")
        elif line.startswith(b"missing character "):
            code, name = re.fullmatch(rb"missing character (\d+) in (.*)", line).groups()
            found.append(f"Missing character: There is no {shown_as_knuth(bytes([int(code)]))} in font {shown_as_knuth(name)}!")
    return "\n".join(found)


def events(log):
    """What a log says, in order: texts of messages without what is meant to differ, missing characters, and bad boxes."""
    found = []
    for text, character, font, box in re.findall(r"\|\*(.*?)\*\||There is no (\S+| ) in font (\S+?)!|((?:Over|Under)full \\[hv]box \((?:badness )?\S+|(?:Loose|Tight) \\[hv]box \(badness \d+)", log, re.S):
        if character:
            found.append(f"missing {character} in {font}")
        elif box:
            found.append(box.rstrip(")"))
        else:
            text = re.sub(r"\(\./b\.tex|[()]|\[[-.0-9]*\]| |\n", "", text.replace("\\csname\\endcsname", "\\"))
            found.append(re.sub("#+", "#", text))
    return found


def short_runs():
    """What never ends writes no endless file, and takes so many seconds of a processor, however many others there are at work."""
    resource.setrlimit(resource.RLIMIT_FSIZE, (FILE, FILE))
    resource.setrlimit(resource.RLIMIT_CPU, (SECONDS, SECONDS))


def log_of(folder, *options):
    """TeX's log of a run with these options, nothing where it doesn't end."""
    words = ["tex", "-ini", "-interaction=nonstopmode", *options, "-file-line-error", "main.tex"]
    place = {"max_print_line": "1000000", "TEXINPUTS": ".", "error_line": "254", "half_error_line": "200"}
    try:
        none = subprocess.DEVNULL
        done = subprocess.run(words, cwd=folder, stdin=none, stdout=none, stderr=none, env={**os.environ, **place}, timeout=60 * SECONDS, preexec_fn=short_runs)
    except subprocess.TimeoutExpired:
        return None
    if done.returncode in (-signal.SIGXCPU, -signal.SIGKILL):
        return None
    with open(os.path.join(folder, "main.log"), encoding="latin-1") as file:
        log = file.read()
    return None if len(log) >= FILE else log


def last_closed(log):
    """The file that a log says was closed last, by its parentheses."""
    log = re.sub(r"\|\*.*?\*\||There is no (\S+| ) in font", "", log[log.index("\n**"):], flags=re.S)
    opened, closed = [], None
    for name, end in re.findall(r"\((?:\./)?([a-z]+\.tex)|(\))", log):
        if name:
            opened.append(name)
        elif opened:
            closed = opened.pop()
    return closed


def ends_file(folder, text):
    """Whether an error of TeX comes of the end of a file: in skipped text its help tells, which it gives where it goes on."""
    if not text.startswith("Incomplete"):
        return text.startswith("File ended")
    log = log_of(folder) or ""
    helped = re.search(r"Incomplete .*?(The file ended while I was|A forbidden control sequence occurred)", log, re.S)
    return bool(helped) and helped[1].startswith("The file")


def knuths(folder):
    """What TeX's log says: texts and codes; the first error with its file and line, what it says, and the file whose end it
    is, if it is one's; nothing where it met a limit."""
    log = log_of(folder, "-halt-on-error")
    if log is None:
        return None
    first = re.search(r"^(?:! |(?:\./)?([a-z.]+):(\d+): )(.*)$", log, re.M)
    before = log[: first.start()].split("\nRunaway ")[0] if first else log
    found = events(before)
    if first and "capacity exceeded" in first[3]:
        return None
    number = first and next((number for number, pattern in ERRORS if re.match(pattern, first[3])), first[3])
    if not first:
        return found, None
    ended = last_closed(before) if ends_file(folder, first[3]) else None
    return found, (number, first[1], int(first[2] or 0), first[3], ended)


def counts(folder, name):
    """The counts of each page of a DVI file."""
    path = os.path.join(folder, name)
    if not os.path.exists(path):
        return []
    with open(path, "rb") as file:
        data = file.read()
    four = lambda at: int.from_bytes(data[at:at + 4], "big", signed=True)
    # A run that an error ended may leave a file without an end.
    at, found = four(four(len(data.rstrip(b"\xdf")) - 5) + 1) if data.endswith(b"\xdf" * 4) else -1, []
    while 0 <= at:
        found.append([four(at + 1 + 4 * k) for k in range(10)])
        at = min(four(at + 41), at - 1)
    return found[::-1]


def first_difference(mine, theirs):
    """Where two lists first differ, in words."""
    at = next((k for k, (one, other) in enumerate(zip(mine, theirs)) if one != other), min(len(mine), len(theirs)))
    return f"text {at + 1} is {mine[at:at + 1]}, Knuth's TeX {theirs[at:at + 1]}"


def last_lines(text):
    """The lines with which a file may end: its last one, 0 where it has none, and those with \\endinput."""
    lines = text.splitlines()
    return [len(lines)] + [at for at, line in enumerate(lines, 1) if "\\endinput" in line]


def is_place(files, error, name, line):
    """Whether a file and line are those of an error of TeX's, or, where that is one of a file's end, those of this end."""
    _, their_name, their_line, _, ended = error
    if ended:
        return name == ended and line in last_lines(files[ended])
    return (name, line) == (their_name, their_line)


def compare(files, said, log, theirs, our_counts, their_counts, whole=False):
    """What is wrong, nothing where all agrees, or all up to a limit or to what isn't there yet; whole: neither is met."""
    mine = events(as_knuth(log))
    end = re.search(r"run: (\d+) pages, (?:(end|budget|page limit)|error (\d+)(?: at (\S+) line (\d+))?)", said)
    if not end:
        return f"it said {said!r}"
    if theirs is None:
        return None if end[2] == "budget" else "Knuth's TeX met a limit"
    found, error = theirs
    both = error and error[0] == 24 and mine == found
    stopped = end[2] == "budget" or end[3] == "26" or end[3] == "24" and not both
    if stopped and not whole:
        found = found[: len(mine)]
        return None if found == mine else f"up to {end[0]}: {first_difference(mine, found)}"
    if mine != found:
        return f"{first_difference(mine, found)} {error}; {end[0]}"
    if (end[3] is None) != (error is None):
        return f"{end[0]}, Knuth's TeX {error}"
    if error:
        number = int(end[3])
        if number == 36 and error[0] == 36:
            return None
        # A font that is scaled by too much or too little is told of as a magnification is.
        told_alike = number == 21 and error[0] == 35
        if number != error[0] and not told_alike:
            return f"{end[0]}, Knuth's TeX {error}"
        if not is_place(files, error, end[4], int(end[5] or 0)):
            return f"{end[0]}, Knuth's TeX {error}"
    elif our_counts != their_counts:
        return f"pages {our_counts}, Knuth's TeX {their_counts}"
    return None


def put(folder, files):
    for name in os.listdir(folder):
        os.remove(os.path.join(folder, name))
    for name, text in files.items():
        with open(os.path.join(folder, name), "w", encoding="latin-1") as file:
            file.write(text)


def tried(program, folder, files, whole=False):
    """What is wrong with a document, nothing where the program and Knuth's TeX agree; its first file is the main one."""
    put(folder, files)
    said, log = ours(program, folder, files)
    return compare(files, said, log, knuths(folder), counts(folder, "a.dvi"), counts(folder, "main.dvi"), whole)
