"""The programs that checks ask: `vortex`, and the program of worked cases."""
import functools
import os
import subprocess
import sys

TOP = os.path.normpath(os.path.join(os.path.dirname(os.path.abspath(__file__)), ".."))
CRATES = os.path.join(TOP, "crates")
READ = (".rt", ".antt")
# (what a check asks doesn't hang on the folders of who calls it)
os.environ.pop("VORTEX_PATH", None)


@functools.lru_cache(maxsize=None)
def vortex():
    """The program that ./vortex runs, which has unpacked or built it by then."""
    launcher = os.path.join(TOP, "vortex")
    done = subprocess.run([launcher, "--version"], stdin=subprocess.DEVNULL, stdout=subprocess.DEVNULL)
    if done.returncode != 0:
        raise SystemExit(done.returncode)
    # (in a folder that can't be written to, another one lies in the user's cache)
    out = os.path.join(CRATES, "vortex", "out")
    return os.path.join(out, "vortex") if os.access(out, os.W_OK) else launcher


def is_built(program):
    """Whether the program was built since a source was last written."""
    if not os.access(program, os.X_OK):
        return False
    made = os.stat(program).st_mtime
    for at, folders, names in os.walk(CRATES):
        folders[:] = [it for it in folders if it != "out"]
        if any(name.endswith(READ) and os.stat(os.path.join(at, name)).st_mtime > made for name in names):
            return False
    return True


def parted(words):
    """Which of a check's documents are tried, each Nth from the Kth on where the words begin with `--part K/N`, and the other words."""
    if words[:1] != ["--part"]:
        return slice(None), words
    first, every = map(int, words[1].split("/"))
    return slice(first - 1, None, every), words[2:]


def built(name):
    """The path of a program of cases, as the gate has left it; where it isn't built, the check that asks it is left out."""
    program = os.path.join(CRATES, name, "out", name)
    if not is_built(program):
        print(f"{os.path.basename(sys.argv[0])}: left out, the program {name} isn't built: rt ci builds it")
        raise SystemExit(0)
    return program
