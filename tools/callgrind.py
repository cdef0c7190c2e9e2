"""The program and Knuth's TeX under callgrind, for the benchmarks of whole documents."""
import functools
import os
import re
import shutil
import subprocess
import tempfile

TOP = os.path.join(os.path.dirname(os.path.abspath(__file__)), "..")
PROGRAM = os.path.join(TOP, "crates", "vortex", "out", "vortex")
OURS = [PROGRAM] + "run --date 2024-5-17-570 --out a --pages 10000 --budget 1000000000 main.tex".split()
KNUTHS = ["tex", "-ini", "-interaction=batchmode", "main.tex"]


def is_there():
    """Whether all that is needed is installed."""
    return all(shutil.which(name) for name in ["valgrind", "callgrind_annotate", "tex"])


def build():
    """The program is built, and so proved, unless that is done."""
    subprocess.run([os.path.join(TOP, "vortex"), "--version"], capture_output=True)


def instructions(command, document, profile=os.devnull, beside=()):
    """How many instructions a command takes for a document, beside which these files lie."""
    valgrind = ["valgrind", "--tool=callgrind", f"--callgrind-out-file={profile}"]
    with tempfile.TemporaryDirectory() as folder:
        for path in beside:
            shutil.copy(path, folder)
        with open(os.path.join(folder, "main.tex"), "w") as file:
            file.write(document)
        done = subprocess.run(valgrind + command, cwd=folder, capture_output=True, stdin=subprocess.DEVNULL)
    return int(re.search(rb"Collected : (\d+)", done.stderr)[1])


def functions(profile):
    """The lines of a profile's costliest functions."""
    text = subprocess.run(["callgrind_annotate", profile], capture_output=True).stdout.decode()
    lines = [line for line in text.splitlines() if re.match(r"\s*[\d,]+ +\(", line)]
    return [re.sub(r"\?\?\?:|\[/.*", "", line).strip() for line in lines[1:13]]


@functools.cache
def a_use(command, begin, use, uses, profile, beside):
    """The instructions of a use: those by which so many and a tenth of them differ, by the uses more."""
    few, many = (instructions(list(command), begin + (use + "\n") * count + "\\end\n", profile, beside) for count in (uses // 10, uses))
    return (many - few) / (uses - uses // 10)


def table(rows, chosen, begin, beside=()):
    """Prints for each row, or for those with these numbers, what an item costs of which a use has so many more than the same without
    them; behind a chosen row stand the functions in which the program spends most."""
    ours, theirs = (*OURS, *map(os.path.basename, beside)), tuple(KNUTHS)
    print("| | Items | `vortex`, an item | Knuth's TeX, an item | Ratio |\n|---|---|---|---|---|")
    with tempfile.TemporaryDirectory() as folder:
        profile = os.path.join(folder, "profile")
        for name, use, without, items, uses in [rows[at] for at in chosen] or rows:
            of = lambda command, text, into: a_use(command, begin, text, uses, into, beside)
            mine, others = [(of(command, use, into) - of(command, without, os.devnull)) / items for command, into in ((ours, profile), (theirs, os.devnull))]
            print(f"| {name} | {items:,} | {mine:,.0f} | {others:,.0f} | {mine / others:.2f} |", flush=True)
            if chosen:
                print("\n".join(functions(profile)))
