"""What the tools of this folder share: the crates, and the comments of their definitions and laws."""
import pathlib
import re

TOP = pathlib.Path(__file__).resolve().parent.parent


def crates():
    """The folders of the crates, lowest first."""
    lines = (line.split("#")[0] for line in (TOP / "crates.txt").read_text().splitlines())
    return [TOP / "crates" / line.split(":")[0].strip() for line in lines if ":" in line]


def modules(crate, folder):
    """The files of a crate's definitions or laws, with their lines, but the list of them."""
    for path in sorted((crate / folder).glob("*.antt")):
        if path.stem != "Lib":
            yield path.stem, path.read_text().splitlines()


def comment(lines):
    """The comment with which some lines begin, as one line."""
    words = []
    for line in lines:
        if not line.startswith("--"):
            break
        words += line[2:].split()
    return " ".join(words)


def comment_above(lines, at):
    """The comment over a line, as one line."""
    first = at
    while first > 0 and lines[first - 1].lstrip().startswith("--"):
        first -= 1
    return comment([line.lstrip() for line in lines[first:at]])


def is_field(lines, at):
    """Whether a line is a field of a record."""
    head = next((line for line in reversed(lines[:at]) if line[:1].strip()), "")
    return lines[at].startswith(" ") and re.match(r"(pub )?record ", head) is not None
