"""How an error that ends a run is told on standard error."""
import os
import re

TOP = os.path.normpath(os.path.join(os.path.dirname(os.path.abspath(__file__)), ".."))
# How many characters of a line are shown.
WIDTH = 72


def words():
    """The words of each error by its number, as docs/FORMATS.md has them."""
    with open(os.path.join(TOP, "docs", "FORMATS.md"), encoding="utf-8") as file:
        part = file.read().split("## Errors in words\n")[1].split("\n## ")[0]
    return {int(number): text for number, text in re.findall(r"^\| (\d+) \| (.*) \|$", part, re.MULTILINE)}


def quoted(data, number):
    """A line of a file as it is shown, with its end; nothing where it is blank."""
    line = data.split(b"\n")[number - 1].rstrip(b" \t\r\f") if number else b""
    try:
        text = line.decode()
    except UnicodeDecodeError:
        text = "".join(chr(byte) if byte < 128 else "?" for byte in line)
    shown = "".join("?" if ord(c) < 32 or 127 <= ord(c) < 160 else c for c in text[:WIDTH].replace("\t", " "))
    return f"{number:5} | {shown}{' ..' if len(text) > WIDTH else ''}\n" if text else ""
