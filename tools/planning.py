"""How long checks take that rt ci plans: by the table of docs/COSTS.md, by the lines of crates, and by how it starts them."""
import functools
import os
import re
import subprocess

TOP = os.path.normpath(os.path.join(os.path.dirname(os.path.abspath(__file__)), ".."))
# The table's seconds are those of four checks at a time, on processors of which four do the work of some two: a check by itself took
# so much less. With more at a time than two each is taken to be slower.
FOUR = 1.8
SLOWER = {1: 1, 2: 1, 3: 1.4}
# What a check over what its crate's own check proved takes of the memory of one from nothing, and each further job of a proof.
OVER, MORE = 0.7, 0.6


@functools.lru_cache(maxsize=None)
def kit():
    """The kit's folder; of a machine that has none, one that isn't there."""
    try:
        return os.path.dirname(subprocess.run(["rt", "doc"], capture_output=True, text=True, check=True).stdout.strip())
    except (OSError, subprocess.CalledProcessError):
        return os.devnull


def pace(processors):
    """What a check takes with so many processors, of the table's seconds."""
    return SLOWER.get(processors, FOUR) / FOUR


def crates(top):
    """The crates of crates.txt, each with the libraries of its line."""
    with open(f"{top}/crates.txt", encoding="utf-8") as file:
        lines = [line.partition("#")[0].partition(":") for line in file]
    return {name.split()[0]: rest.split() for name, colon, rest in lines if colon}


def table():
    """The seconds of each crate's proof, of its wrong bodies and how many these are, as docs/COSTS.md has them."""
    found = {}
    row = re.compile(r"\| `(\w+)` \| [\d,]+ \| [\d,]+ \| [\d,]+ \| ([\d,]+) \| [\d,]+ \| (\d+) \| ([\d,]+) \|")
    try:
        with open(f"{TOP}/docs/COSTS.md", encoding="utf-8") as file:
            for it in filter(None, map(row.match, file)):
                number = lambda group: int(it[group].replace(",", ""))
                found[it[1]] = number(2), number(3), number(4)
    except OSError:
        pass
    return found


class Plan:
    """What rt ci has to do in a repository, or in a part of one."""

    def __init__(self, top=TOP):
        self.top, self.deps, self.found, self.times = top, crates(top), {}, table()
        self.deps = {name: self.deps[name] for name in sorted(self.deps, key=lambda it: len(self.below(it)))}
        self.code = {name: self.lines(name, ".rt") for name in self.deps}
        self.logic = {name: self.lines(name, ".antt") for name in self.deps}
        self.need = {name: self.need_of(name) for name in self.deps}

    def lines(self, name, ending):
        count = 0
        for part in ("src", "specs", "proofs"):
            for at, _, files in os.walk(f"{self.top}/crates/{name}/{part}"):
                for file in files:
                    if file.endswith(ending):
                        with open(f"{at}/{file}", "rb") as it:
                            count += it.read().count(b"\n")
        return count

    def below(self, name):
        """The crates that one stands on."""
        if name not in self.found:
            below = []
            for dep in self.deps[name]:
                if dep in self.deps:
                    below += [it for it in [*self.below(dep), dep] if it not in below]
            self.found[name] = below
        return self.found[name]

    def need_of(self, name):
        """The memory that rt ci allows for a check from nothing, in bytes: by the crate's lines, those below it, and the kit's libraries."""
        others = {it for crate in [name, *self.below(name)] for it in self.deps[crate] if it not in self.deps}
        files = [f"{kit()}/rlibs/{it}.rlib/toolchain/checked.a" for it in others]
        loaded = sum(os.path.getsize(it) for it in files if os.path.isfile(it))
        under = sum(self.code[it] for it in self.below(name))
        return 1e9 + 1e6 * self.code[name] + 2e5 * self.logic[name] + 8e4 * under + min(5 * loaded, 2.5e9)

    def proof(self, name):
        """The seconds of a crate's proof; where the table has none, a guess by its lines."""
        return self.times[name][0] if name in self.times else 15 + (self.code[name] + self.logic[name]) / 12

    def proofs(self, left):
        """For `run`, what each proof that is left waits for, its lines, its memory and its seconds, which left has by crate."""
        waits = lambda name: [(it, "proof") for it in self.below(name) if it in left]
        return {(name, "proof"): (waits(name), self.code[name], self.need[name], left[name]) for name in self.deps if name in left}

    def tasks(self, scales, pace):
        """The same for all checks of the gate, with a factor for the proofs of some crates, and one for all seconds."""
        found = {}
        for name in self.deps:
            proof, (edits, all_edits) = pace * self.proof(name), self.times.get(name, (0, 0, 0))[1:]
            all_edits *= pace
            scaled = proof * scales.get(name, 1)
            waits, lines, need = [(it, "proof") for it in self.below(name)], self.code[name], self.need[name]
            found[name, "proof"] = waits, lines, need, scaled
            if edits == 1:
                found[name, "edits", 0] = [*waits, (name, "proof")], lines, need, all_edits * scaled / proof
            if edits > 1:
                each = max((all_edits - proof) / (edits + 1), 8)
                found[name, "seed"] = waits, 0, need, scaled
                for it in range(edits):
                    found[name, "edits", it] = [*waits, (name, "proof"), (name, "seed")], lines, OVER * need, each
                found[name, "sound"] = [(name, "edits", it) for it in range(edits)], 0, OVER * need, each
        return found


def run(tasks, memory, processors):
    """The spans of a run of these checks, each with the processors that are busy in it, and when the last proof ended. rt ci starts a
    check only where what it may need fits into the memory beside the others, the longest chain of crates first; no wrong body is begun
    while a proof waits for memory."""
    behind = {it: 0 for it in tasks}
    for key in reversed([*tasks]):
        behind[key] += tasks[key][1]
        for it in tasks[key][0]:
            behind[it] = max(behind[it], behind[key])
    fills = lambda it: it[1] in ("edits", "seed")
    left, running, done, now, spans, proved = sorted(tasks, key=lambda it: (fills(it), -behind[it])), {}, set(), 0, [], 0
    while left or running:
        ready = [it for it in left if done.issuperset(tasks[it][0])]
        proofs, lacks = [it for it in ready if it[1] == "proof"], False
        for at, key in enumerate(ready):
            if lacks and fills(key):
                break
            need, seconds = tasks[key][2:]
            room = memory - sum(it for _, it, _ in running.values())
            idle = processors - sum(it for _, _, it in running.values())
            if idle > 0 and (not running or need <= room):
                left.remove(key)
                others = len(proofs) - proofs.index(key) if key in proofs else len(ready) - at
                jobs = max(1, min(4, idle // others, 1 + int((room / need - 1) / MORE))) if key in proofs or key[1] == "seed" else 1
                # (with more jobs a check takes some more of the processors)
                running[key] = now + seconds * (1 + 0.05 * (jobs - 1)) / jobs, need * (1 + MORE * (jobs - 1)), jobs
            else:
                lacks = lacks or idle > 0 and key in proofs
        ends = min(it for it, _, _ in running.values())
        spans.append((now, ends, sum(it for _, _, it in running.values())))
        now = ends
        for key in [it for it in running if running[it][0] <= now]:
            proved = now if key[1] == "proof" else proved
            done.add(key)
            del running[key]
    return spans, proved


def busy(spans, start, end):
    """How many processors are busy on average between two moments."""
    return sum(max(0, min(last, end) - max(first, start)) * count for first, last, count in spans) / (end - start)
