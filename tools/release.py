"""The sources of the program, their checksum, and what the repository's release says of itself.

The checksum is the one that ./vortex makes: over the lines of crates.txt of the program's crates, and over their src, specs and proofs.
"""
import hashlib
import os
import re
import struct
import subprocess

TOP = os.path.normpath(os.path.join(os.path.dirname(os.path.abspath(__file__)), ".."))
FOLDER = os.path.join(TOP, "release")
PACKED = os.path.join(FOLDER, "vortex-x86_64-linux.xz")
NOTE = os.path.join(FOLDER, "SOURCES")
PARTS = ("src", "specs", "proofs")


def sum_of(data):
    return hashlib.sha256(data).hexdigest()


def lines_of_crates(top):
    """The lines of crates.txt of the program's crates, each behind those that it stands on, by their names."""
    with open(f"{top}/crates.txt", encoding="utf-8") as file:
        parted = [line.partition(":") for line in file if not re.match(" *#", line)]
    stands = {name.split()[0]: rest.split() for name, colon, rest in parted if colon}
    found = {}

    def walk(name, begun):
        if name in stands and name not in begun:
            begun.add(name)
            for it in stands[name]:
                walk(it, begun)
            found[name] = " ".join([name + ":", *stands[name]])

    walk("vortex", set())
    return found


def sources(top, names):
    """The files that a build of these crates reads, as they are named from the top."""
    found = []
    for name in names:
        for part in PARTS:
            for at, _, files in os.walk(f"{top}/crates/{name}/{part}"):
                found += [os.path.relpath(f"{at}/{file}", top) for file in files if file.endswith((".rt", ".antt"))]
    return sorted(found, key=os.fsencode)


def checksum(top):
    """One checksum of all that the program is made of."""
    lines = lines_of_crates(top)
    told = "".join(f"{line}\n" for line in lines.values())
    text = f"{sum_of(told.encode())}  -\n"
    for path in sources(top, lines):
        with open(f"{top}/{path}", "rb") as file:
            text += f"{sum_of(file.read())}  {path}\n"
    return sum_of(text.encode())


def kit():
    """The name of the kit on this machine, None where there is none."""
    try:
        return subprocess.run(["rt", "version"], capture_output=True, text=True, check=True).stdout.strip()
    except (OSError, subprocess.CalledProcessError):
        return None


def noted():
    """What the release says of itself, by the first word of each line; nothing where there is none."""
    try:
        with open(NOTE, encoding="utf-8") as file:
            return dict(line.rstrip("\n").split(" ", 1) for line in file if " " in line)
    except OSError:
        return {}


def note(folder, sources, begun):
    """Notes of which sources the program in a folder is, as of the moment before they were read; ./vortex looks there."""
    new = f"{folder}/built-from.{os.getpid()}"
    with open(new, "w", encoding="utf-8") as file:
        file.write(f"{sources}\n")
    os.utime(new, (begun, begun))
    os.replace(new, f"{folder}/built-from")


def unpacked():
    """The program in the release, None where it can't be unpacked."""
    try:
        return subprocess.run(["xz", "-dc", PACKED], capture_output=True, check=True).stdout
    except (OSError, subprocess.CalledProcessError):
        return None


def stripped(program):
    """The part of a program of 64 bits that is loaded, without names of functions and sections: by its bytes alone, so that
    each machine makes the same of the same program. What is no ELF file of 64 bits stays as it is."""
    if program[:6] != b"\x7fELF\x02\x01":
        return program
    (first,), (size, count) = struct.unpack_from("<Q", program, 32), struct.unpack_from("<HH", program, 54)
    end = first + size * count
    for number in range(count):
        offset, _, _, length = struct.unpack_from("<QQQQ", program, first + size * number + 8)
        end = max(end, offset + length)
    head = bytearray(program[:end])
    # where the table of sections stood, how many it had, and which of them had their names
    struct.pack_into("<Q", head, 40, 0)
    struct.pack_into("<HH", head, 60, 0, 0)
    return bytes(head)
