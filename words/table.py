"""Reads words/refusals.txt, whose first lines say what stands in it."""
import dataclasses
import pathlib
import re

from operations import surface

ROOT = pathlib.Path(__file__).resolve().parent.parent
FILE = ROOT / "words" / "refusals.txt"
KINDS = {
    "call": "What was lent to a call does not fit",
    "lesson": "The lesson is refused, and does not run",
    "library": "The library is refused, and is joined to no lesson",
    "frames": "The frames are refused, and do not run",
    "fault": "A fault of the lesson or of the frames ended the run",
    "limit": "A limit stopped the run",
}
# What bayrun lends, and more than enough of what it does not.
LENT = {"table": 16384, "strip": 33281, "budget": 100000, "calls": 64, "heap": 4096, "output": 256, "registers": 16,
        "frames": 373417, "stack": 140000, "price": 1,
        **{"record." + f.name: 0 for r in surface().records if r.name == "frame_record" for f in r.fields}}
# Those of them that a caller of the bindings chooses, of a run and of a run of frames.
LIMITS = ["budget", "calls", "heap", "output"]
FRAME_LIMITS = LIMITS + ["price"]
MARK = "@"
REPEATED = re.compile("⟨(.)⟩([0-9]+)")


@dataclasses.dataclass
class Refusal:
    number: int
    name: str
    kind: str
    says: str
    at: str
    operation: str
    changed: dict  # what is lent otherwise than LENT says
    written: str  # the lesson as the table has it
    written_library: str
    written_frames: str

    @property
    def constant(self):
        return self.name.upper().replace(" ", "_")

    @property
    def variant(self):
        return "".join(word.capitalize() for word in self.name.split(" "))

    @property
    def lent(self):
        return {**LENT, **self.changed}

    @property
    def lesson(self):
        return unmarked(self.written)

    @property
    def library(self):
        return unmarked(self.written_library)

    @property
    def frames(self):
        return unmarked(self.written_frames).replace(b"/", b"\n")

    @property
    def is_in_library(self):
        return MARK in self.written_library

    @property
    def is_chosen(self):
        """Whether a caller of the bindings can meet it: all that they lend themselves is enough."""
        return set(self.changed) <= set(FRAME_LIMITS)

    @property
    def position(self):
        marked = next(text for text in (self.written, self.written_library, self.written_frames) if MARK in text)
        return repeated(marked).index(MARK)


def repeated(written):
    return REPEATED.sub(lambda m: m.group(1) * int(m.group(2)), written)


def unmarked(written):
    return repeated(written).replace(MARK, "").encode("ascii")


def refusal(block):
    head, *rest = block.split("\n")
    number, name = head.split(" ", 1)
    fields = dict(line.split(": ", 1) for line in rest)
    operation, *changed = fields.pop("by").split(" ")
    made = Refusal(int(number), name, fields.pop("kind"), fields.pop("says"), fields.pop("at"), operation,
                   {key: int(value) for key, value in zip(changed[::2], changed[1::2])}, fields.pop("lesson", ""), fields.pop("library", ""),
                   fields.pop("frames", ""))
    marks = (made.written + made.written_library + made.written_frames).count(MARK)
    if fields or made.kind not in KINDS or not set(made.changed) <= set(LENT) or marks != 1:
        raise ValueError("%s: %s" % (FILE.name, head))
    return made


def refusals():
    """All of them, by their numbers."""
    lines = [line for line in FILE.read_text().splitlines() if not line.startswith("#")]
    return sorted((refusal(block) for block in "\n".join(lines).strip().split("\n\n")), key=lambda r: r.number)
