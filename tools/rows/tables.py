"""Reads the tables of rows beside this file, writes or compares the files that are made of them, and reports lines without a meaning."""
import json
import sys
from contextlib import contextmanager
from pathlib import Path

HERE = Path(__file__).resolve().parent
CRATES = HERE.parent.parent / "crates"


def table_of(name):
    """The lines of a table, each with its place. A line that begins with `##` is for the reader of the table alone."""
    for number, line in enumerate((HERE / name).read_text().split("\n")[:-1], 1):
        if not line.startswith("##"):
            yield f"tools/rows/{name}:{number}", line


def misspelt(text):
    raise ValueError(text)


@contextmanager
def at(place):
    """Reports in one line what is wrong with the line of a table at this place, and ends the program."""
    try:
        yield
    except json.JSONDecodeError as fault:
        sys.exit(f"{place}: no word and no JSON stands at `{fault.doc[fault.pos :][:40]}`")
    except KeyError as fault:
        sys.exit(f"{place}: no rule knows the word {fault}")
    except (ValueError, IndexError, TypeError, AttributeError, OSError) as fault:
        sys.exit(f"{place}: {fault}")


def settled(files, is_check, rows=()):
    """Writes these files. For a check it writes none, and reports of each that differs the first such line, and the row above it."""
    if not is_check:
        for path, data in files.items():
            path.write_bytes(data)
        return []
    return [difference(path, data, rows) for path, data in files.items() if not path.exists() or path.read_bytes() != data]


def difference(path, data, rows):
    should = data.decode(errors="replace").split("\n")
    found = path.read_bytes().decode(errors="replace").split("\n") if path.exists() else []
    first = next(at for at in range(max(len(should), len(found))) if should[at : at + 1] != found[at : at + 1])
    row = next((should[it] for it in range(min(first, len(should) - 1), -1, -1) if should[it] in rows), "")
    given, has = (it[first] if first < len(it) else "the end" for it in (should, found))
    below = f", below the row `{row[:200]}`" if path.name == "stdout" and row not in ("", given) else ""
    given, has = around(given, has), around(has, given)
    return f"{path.relative_to(CRATES.parent)}:{first + 1}: the rules give `{given}`, and the file has `{has}`{below}"


def around(text, other):
    """A part of a long line, from a little before the place where it differs."""
    at = next((at for at, (one, its) in enumerate(zip(text, other)) if one != its), min(len(text), len(other)))
    return ".." * (at > 80) + text[max(at - 60, 0) if at > 80 else 0 :][:160]
