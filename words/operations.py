"""Reads words/operations.txt, whose first lines say what stands in it."""
import dataclasses
import pathlib

FILE = pathlib.Path(__file__).resolve().parent / "operations.txt"
STRIPS = {"bytes", "text", "words", "numbers", "entries"}


@dataclasses.dataclass
class Field:
    """A field of a record, or a constant."""

    name: str
    type: str
    value: str
    words: str


@dataclasses.dataclass
class Record:
    name: str
    says: str
    fields: list


@dataclasses.dataclass
class Argument:
    name: str
    kind: str  # of STRIPS, or the name of a record
    after: str  # "" where it is only read
    words: str

    @property
    def is_strip(self):
        return self.kind in STRIPS


@dataclasses.dataclass
class Operation:
    name: str
    says: str
    arguments: list
    answer: str  # the name of a record
    by_hand: str  # the word that begins its cases where they have parts, or "": then what follows says their form
    case: list
    answered: list
    leading: str  # the strip whose first elements end an answer, or ""

    def argument(self, name):
        return next(a for a in self.arguments if a.name == name)

    def is_given(self, word):
        """Whether a word of a case is a strip's bytes."""
        return any(a.name == word and a.is_strip and not a.after for a in self.arguments)


def split(line, count):
    """The first words of a line, as many as that, and what stands after a colon."""
    head, _, words = line.partition(": ")
    given = head.split(" ")
    return given + [""] * (count - len(given)) + [words]


def field(line):
    name, kind, value, words = split(line, 3)
    return Field(name, kind, value, words)


def record(name, lines):
    return Record(name, lines[0][len("says: ") :], [field(line) for line in lines[1:]])


def operation(name, lines):
    arguments = [Argument(*split(line[len("takes: ") :], 3)) for line in lines if line.startswith("takes: ")]
    rest = dict(line.split(": ", 1) for line in lines if not line.startswith("takes: "))
    if "by hand" in rest:
        return Operation(name, rest["says"], arguments, rest["answers"], rest["by hand"], [], [], "")
    answered, _, leading = rest["answered"].partition(" : ")
    return Operation(name, rest["says"], arguments, rest["answers"], "", rest["case"].split(" "), answered.split(" "), leading)


@dataclasses.dataclass
class Surface:
    constants: list
    records: list
    operations: list


def surface():
    """All of it, as it stands in the file."""
    lines = [line for line in FILE.read_text().splitlines() if not line.startswith("#")]
    found = Surface([], [], [])
    for block in "\n".join(lines).strip().split("\n\n"):
        head, *rest = block.split("\n")
        kind, _, name = head.partition(" ")
        if kind == "constants":
            found.constants += [field(line) for line in rest]
        elif kind == "record":
            found.records.append(record(name, rest))
        elif kind == "operation":
            found.operations.append(operation(name, rest))
        else:
            raise ValueError("%s: %s" % (FILE.name, head))
    return found
