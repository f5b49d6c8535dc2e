"""Compares a written file with what it has to hold, without regard to layout. `tools/types` and `tools/model` import it."""
import re
from dataclasses import dataclass
from pathlib import Path

ROOT = Path(__file__).resolve().parent.parent
# How many characters a difference shows on each side.
SHOWN = 30
MARK = re.compile(r"\s*(//[/!]?)")


@dataclass(frozen=True)
class Flat:
    """A text without its layout: its characters, with what it brings in and passes on first, name by name. Each further character has its
    place in the rest of the text."""

    characters: str
    brought: int
    places: list
    rest: str

    def line(self, at):
        """The line of a character."""
        at = min(at - self.brought, len(self.places) - 1)
        return self.rest.count("\n", 0, self.places[at]) + 1 if at >= 0 else 1

    def around(self, at):
        """The text around a character, with one space for each gap."""
        first, last = max(at - SHOWN - self.brought, 0), min(at + SHOWN - self.brought, len(self.places)) - 1
        if at < self.brought or last < first:
            return self.characters[max(at - SHOWN, 0) : at + SHOWN]
        return " ".join(self.rest[self.places[first] : self.places[last] + 1].split())


def without_marks(text):
    """The text without the mark of each line that goes on the comment of the line above."""
    lines, above = [], None
    for line in text.split("\n"):
        found = MARK.match(line)
        mark = found and found[1]
        lines.append(line[found.end() :] if mark and mark == above else line)
        above = mark
    return "\n".join(lines)


def flat(text):
    """A text without gaps, commas before a closing bracket, and the marks of the lines that go on a comment."""
    names = re.findall(r"(?m)^((?:pub )?use [^;{]*)(?:\{([^}]*)\})?;\n", text)
    brought = "".join(f"{it}; " for it in sorted(path + name for path, group in names for name in re.sub(r"[\s,]+", " ", group).split() or [""]))
    rest = re.sub(r"(?m)^(?:pub )?use [^;]*;\n", lambda it: "\n" * it[0].count("\n"), text)
    rest = without_marks(rest)
    kept = [it.start() for it in re.finditer(r"\S", rest)]
    kept = [at for at, after in zip(kept, [*kept[1:], None]) if rest[at] != "," or after is None or rest[after] not in "])}"]
    return Flat(brought + "".join(rest[at] for at in kept), len(brought), kept, rest)


def difference(path, wanted, source):
    """Where a file is not what its source gives, or nothing."""
    if not path.exists():
        return f"{path.relative_to(ROOT)}:1: it is not there"
    found, wanted = flat(path.read_text(encoding="utf-8")), flat(wanted)
    if found.characters == wanted.characters:
        return ""
    pairs = zip(found.characters, wanted.characters)
    at = next((at for at, (one, other) in enumerate(pairs) if one != other), min(len(found.characters), len(wanted.characters)))
    return f"{path.relative_to(ROOT)}:{found.line(at)}: {source} give `{wanted.around(at)}`, and the file has `{found.around(at)}`"
