"""Small fonts of the letters a to h with ligature and kerning programs, which pltotf makes, for check-ligkern and check-seams."""
import os
import subprocess

OPERATIONS = ["LIG", "LIG/", "/LIG", "/LIG/", "LIG/>", "/LIG>", "/LIG/>", "/LIG/>>"]
LETTERS = range(97, 105)


def character(code):
    return f"C {chr(code)}"


def small_font(labels, boundary):
    """The property list of a font of a to h with programs: a list of labels, each with its commands."""
    lines = ["(FAMILY SMALL)", "(DESIGNSIZE R 10.0)"]
    if boundary is not None:
        lines.append(f"(BOUNDARYCHAR {character(boundary)})")
    lines.append("(LIGTABLE")
    for label, commands in labels:
        lines.append(f"(LABEL {label})")
        for name, following, value in commands:
            lines.append(f"({name} {character(following)} {f'R {value}' if name == 'KRN' else character(value)})")
        lines.append("(STOP)")
    lines.append(")")
    lines += [f"(CHARACTER {character(code)} (CHARWD R 0.5))" for code in LETTERS]
    return "\n".join(lines)


def fonts_of_operations():
    """For each legal operation a font where ab meets it and makes an h, and where a kern shows where the cursor is then."""
    for operation in OPERATIONS:
        labels = [
            (character(97), [(operation, 98, 104), ("KRN", 104, 0.1), ("KRN", 99, 0.2)]),
            (character(104), [("KRN", 98, 0.3), ("KRN", 104, 0.4), ("LIG", 99, 103)]),
            (character(98), [("KRN", 99, 0.5)]),
        ]
        yield small_font(labels, None)


def commands_of(draw, operations, letters):
    """A random program, with commands for some of these letters, which makes some of them."""
    commands = []
    for following in draw.sample(letters, draw.randrange(1, 7)):
        if draw.random() < 0.4:
            commands.append(("KRN", following, draw.randrange(-9, 10) / 10))
        else:
            commands.append((draw.choice(operations), following, draw.choice(letters)))
    return commands


def random_font(draw, operations=OPERATIONS):
    """A font with random programs."""
    labels = []
    for label in [character(code) for code in LETTERS] + ["BOUNDARYCHAR"]:
        commands = commands_of(draw, operations, LETTERS)
        if draw.random() < 0.7:
            labels.append((label, commands))
    return small_font(labels, draw.choice([None, 97, 100]))


def plain_font(draw):
    """A random font without boundaries, whose ligatures stand for both of their characters, and whose h meets nothing."""
    letters = LETTERS[:-1]
    labels = [(character(code), commands_of(draw, ["LIG"], letters)) for code in letters]
    return small_font([label for label in labels if draw.random() < 0.7], None)


def made(folder, name, text):
    """The path of a font of this property list, nothing where pltotf sees a loop in its programs."""
    stem = os.path.join(folder, name)
    with open(stem + ".pl", "w") as file:
        file.write(text)
    said = subprocess.run(["pltotf", stem + ".pl", stem + ".tfm"], capture_output=True, text=True)
    return None if "nfinite" in said.stdout + said.stderr else stem + ".tfm"
