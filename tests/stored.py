"""The stored cases that a program beside `cases` can answer: lines of crates/cases that are well formed, those of frames, which `cases` does not take, and what is due for each."""
import pathlib
import sys

ROOT = pathlib.Path(__file__).resolve().parent.parent
sys.path.insert(0, str(ROOT / "words"))
from operations import surface
from table import refusals

# Of each operation, which words of a line after the first are bytes in hexadecimal digits; the others are numbers.
FORMS = {o.name: [o.is_given(word) for word in o.case] for o in surface().operations if not o.by_hand}
# Of the forms with parts, which words after the first are such bytes; the last is frames, all others are numbers.
#     frames CALLS HEAP OUTPUT REGISTERS STACK TAPE PARTS FRAMES
#     continue RECORD CALLS HEAP OUTPUT REGISTERS STACK TAPE PARTS HEAP STACK FRAMES
# PARTS are how many, then a budget and a price each. Of the registers before a part that continues stands what they hold; of heap and stack strip, behind the parts, how many
# entries are not 0, then each one's place and what it holds.
BYTES_WITH_PARTS = {"frames": {5}, "continue": {12, 14}}
STACK_OF_BINDINGS = next(c.value for c in surface().constants if c.name == "STACK_ENTRIES")
# The numbers that refuse what the bindings always lend enough of.
NEVER_BY_BINDINGS = {str(r.number) for r in refusals() if not r.is_chosen}


def of_cases():
    """Each line that `cases` answers, with its answer. An empty line has none; `help` has several lines, which are left out."""
    # By its bytes: a carriage return, which some malformed lines have, ends no line.
    asked = [line for line in (ROOT / "crates" / "cases" / "stdin").read_bytes().decode("latin-1").split("\n") if line]
    answers = (ROOT / "crates" / "cases" / "stdout").read_text().splitlines()
    usage = asked.index("help")
    longer = len(answers) - (len(asked) - 1)
    return list(zip(asked[:usage], answers)) + list(zip(asked[usage + 1 :], answers[usage + longer :]))


def of_frames():
    """Each stored case of frames, with its answer."""
    asked, answers = ((ROOT / "tests" / name).read_text().splitlines() for name in ("frames.cases", "frames.answers"))
    return list(zip(asked, answers))


def numbers(operation, words):
    """Those of a line's words that are numbers; None where a line of that operation has no such words."""
    if operation in BYTES_WITH_PARTS:
        return [word for k, word in enumerate(words[:-1]) if k not in BYTES_WITH_PARTS[operation]]
    if len(words) != len(FORMS.get(operation, [])):
        return None
    return [word for is_given, word in zip(FORMS[operation], words) if not is_given]


def is_case(line, answer):
    """Whether it is answered by numbers, and 64 bits hold each number in it."""
    operation, *words = line.split(" ")
    found = numbers(operation, words) if words and answer[:1].isdigit() else None
    return found is not None and all(int(number) < 1 << 64 for number in found)


def cases():
    return [row for row in of_cases() + of_frames() if is_case(*row)]


def is_for_bindings(line, answer):
    """Whether the bindings, which lend their own table, strips and registers, and continue none but their own runs, give the same answer."""
    operation, *words = line.split(" ")
    is_lent = operation != "continue" and (operation != "frames" or words[4] == STACK_OF_BINDINGS)
    return is_lent and answer.split(" ")[0] not in NEVER_BY_BINDINGS
