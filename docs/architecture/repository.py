"""What the repository has: the crates of crates.txt under their headings, and their sources."""

import functools
import re
from dataclasses import dataclass
from pathlib import Path

TOP = Path(__file__).resolve().parent.parent.parent

# The libraries that crates.txt names and the Rattle kit has.
KIT = {"check", "io", "itoa"}


@dataclass
class Crate:
    name: str
    heading: str
    needs: list


def crates(problems):
    """The crates in the order of crates.txt, each with the comment line above it that is its heading."""
    found, heading = [], ""
    for number, line in enumerate((TOP / "crates.txt").read_text().splitlines(), 1):
        if line.startswith("#"):
            heading = line.lstrip("# ")
        elif line.strip():
            head, _, needs = line.partition("#")[0].partition(":")
            name, *kind = head.split()
            found.append(Crate(name, heading, needs.split()))
            if kind not in ([], ["staticlib"]):
                problems.append(f"crates.txt:{number}: {name} is '{' '.join(kind)}', which is no kind of crate")
            if not heading:
                problems.append(f"crates.txt:{number}: {name} stands under no heading")
    check_folders([crate.name for crate in found], problems)
    return found


def check_folders(names, problems):
    folders = sorted(path.name for path in (TOP / "crates").iterdir() if path.is_dir())
    for name in sorted(set(names)):
        if names.count(name) > 1:
            problems.append(f"crates.txt: {name} stands there {names.count(name)} times")
        if name not in folders:
            problems.append(f"crates.txt: there is no crates/{name}")
    problems.extend(f"crates/{name}: crates.txt does not have it" for name in folders if name not in names)


@functools.cache
def source(name):
    """All source of a crate: its root first."""
    files = sorted((TOP / "crates" / name / "src").glob("*.rt"), key=lambda path: (path.name not in ("lib.rt", "main.rt"), path.name))
    return "\n".join(path.read_text() for path in files)


def about(name, problems):
    """The first sentence of the comment that a crate's source begins with."""
    comment = []
    for line in source(name).splitlines():
        if not line.startswith("//"):
            break
        comment.append(line[2:].strip())
    sentence = re.split(r"(?<=\.)\s", " ".join(comment), maxsplit=1)[0]
    if not sentence.endswith("."):
        problems.append(f"crates/{name}/src: it does not begin with a comment whose first sentence says what the crate is")
    return sentence


def has_code(name):
    return re.search(r"\bfn \w", source(name)) is not None


def function(crate, name):
    """The text of a function, or of a method where no other function has the name; or nothing."""
    for inset in ("", "    "):
        found = re.search(rf'^{inset}(?:pub )?(?:extern "C" )?fn {name}\b.*?^{inset}}}', source(crate), re.MULTILINE | re.DOTALL)
        if found:
            return found.group(0)
    return ""


def has_item(crate, name):
    return re.search(rf"\b(?:fn|enum|struct|trait|const|mod) {name}\b", source(crate)) is not None
