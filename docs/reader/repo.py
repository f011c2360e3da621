"""The repository's files: which there are, and the order in which README.md has the definitions read."""
import re
from functools import lru_cache
from pathlib import Path

TOP = Path(__file__).resolve().parents[2]
ORDER_HEADING = "## The definitions, in reading order"
SPEC_PATH = re.compile(r"crates/(\w+)/specs/(\w+)\.antt|\b([A-Z]\w*)\.antt")
ENUMS = re.compile(r"((?:`\w+`(?:, )?)+) of crates/(\w+)/src/\w+\.rt")


@lru_cache(None)
def read(path):
    return (TOP / path).read_text(encoding="utf-8")


def crates():
    return sorted(folder.name for folder in (TOP / "crates").iterdir() if folder.is_dir())


def spec_files():
    """(crate, file) of every definition file; Lib.antt only lists the others."""
    found = sorted(path for path in TOP.glob("crates/*/specs/*.antt") if path.name != "Lib.antt")
    return [(path.parts[-3], path.stem) for path in found]


def spec_path(crate, file):
    return f"crates/{crate}/specs/{file}.antt"


def source_files(crate):
    return [str(path.relative_to(TOP)) for path in sorted(TOP.glob(f"crates/{crate}/src/*.rt"))]


class Entry:
    """A row of the reading order: definition files, the enums of the code that they go by, and what they say."""

    def __init__(self, files, enums, says):
        self.files, self.enums, self.says = files, enums, says


def order_rows():
    """The rows of README.md's table, as pairs of cells."""
    text = read("README.md").split(ORDER_HEADING + "\n", 1)[1]
    rows = []
    for line in text.split("\n"):
        if line.startswith("|"):
            rows.append([cell.strip() for cell in line.strip("|").split(" | ")])
        elif rows:
            break
    return rows[2:]


def reading_order():
    return [entry_of(cells) for cells in order_rows()]


def entry_of(cells):
    enums = [(name, match[2]) for match in ENUMS.finditer(cells[0]) for name in re.findall(r"`(\w+)`", match[1])]
    files = []
    crate = None
    for match in SPEC_PATH.finditer(cells[0]):
        crate = match[1] or crate
        files.append((crate, match[2] or match[3]))
    return Entry(files, enums, cells[1].strip(" |"))
