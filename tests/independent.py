"""The independent cases, which stand outside the repository, with the answers that are due of them.

The cases of document 01 stand in vectors/. Those of document 02 stand in vectors-requests/stage-K/, for a repository in which requests 1 to K hold; stage-K/old/ has what is then due
of document 01's cases. A stage whose request changes no result has no folder; the cases of an operation that a request adds stand beside the stages, those of frames (encode, frames and
continue) in one file. From stage 7 on an answer of run has
the climbs after the steps; from stage 8 on a case of run has the length of its register strip and its tape before the source, and the answer the registers after the heap words. Earlier cases
are read with a strip of 16 bytes and an empty tape.
"""
import collections
import pathlib

SHARED = pathlib.Path(__file__).resolve().parent.parent.parent / "shared"
STAGE = 9  # the answers are those due with requests 1 to STAGE of document 02, of which (v), an operation of its own, changes none; raise it as the next one lands
CLIMBS = 7  # the stage from which on run's answers have climbs
REGISTERS = 8  # the stage from which on run's cases have a register strip and a tape, and its answers registers
FRAMES = ["encode", "frames", "continue"]  # operations whose cases stand in one file
RUN_ENDS = {"0", "40", "41", "42", "50", "51", "52", "53", "63", "64"}  # all other numbers refuse the call

# A name to print, and pairs of a case and its answer.
Group = collections.namedtuple("Group", "name rows")


def lines(path):
    return path.read_text().splitlines() if path.exists() else []


def group(name, cases, answers):
    asked, due = lines(cases), lines(answers)
    if len(asked) != len(due):
        raise SystemExit("%s has %d cases and %d answers" % (name, len(asked), len(due)))
    return Group(name, list(zip(asked, due)))


def with_climbs(case, answer):
    """An answer of run from before climbs were counted, with them: 0 where no step was taken, as in refusals, and where main is the only method; else `*`, for any number."""
    head, colon, printed = answer.partition(" : ")
    number, position, steps, words = head.split(" ")
    is_without_calls = steps == "0" or bytes.fromhex(case.split(" ")[-1]).count(b"public") == 1
    return " ".join([number, position, steps, "0" if is_without_calls else "*", words]) + colon + printed


def with_strip(case):
    """A case of run from before there were registers, with a strip for them and an empty tape."""
    words, source = case.rsplit(" ", 1)
    return " ".join([words, "16", "-", source])


def with_registers(answer):
    """An answer of run from before there were registers, with them: all 0 after a run, since no lesson of that time puts anything, and its tape is empty."""
    head, colon, printed = answer.partition(" : ")
    return " ".join([head, "00" * 16 if head.split(" ")[0] in RUN_ENDS else "-"]) + colon + printed


def group_of_request(k, folder, operation):
    """The cases of request k and their answers, in the form that is due at the latest stage."""
    found = group("%s of request %d" % (operation, k), folder / (operation + ".cases"), folder / (operation + ".answers"))
    rows = found.rows
    if operation == "run" and k < CLIMBS <= STAGE:
        rows = [(case, with_climbs(case, answer)) for case, answer in rows]
    if operation == "run" and k < REGISTERS <= STAGE:
        rows = [(with_strip(case), with_registers(answer)) for case, answer in rows]
    return Group(found.name, rows)


def group_of_document_01(shared, latest, operation):
    """Its cases, with the answers of the latest stage; these are in the form that is due then, the cases are not."""
    found = group(operation, shared / "vectors" / (operation + ".cases"), latest / (operation + ".answers"))
    if operation == "run" and REGISTERS <= STAGE:
        return Group(found.name, [(with_strip(case), answer) for case, answer in found.rows])
    return found


def is_outside(case):
    """Whether a case of continue holds something at a place below 0, which no strip has: it is no case then."""
    words = case.split(" ")
    heap = 17 + 2 * int(words[16])  # behind the parts
    stack = heap + 1 + 2 * int(words[heap])
    return any(place.startswith("-") for place in words[heap + 1 : stack : 2] + words[stack + 1 : -1 : 2])


def group_of_frames(requests, operation):
    found = group(operation, requests / "frames.cases", requests / "frames.answers")
    rows = [(case, answer) for case, answer in found.rows if case.split(" ")[0] == operation]
    return Group(operation, [(case, answer) for case, answer in rows if operation != "continue" or not is_outside(case)])


def groups(shared, operation):
    """The groups of an operation's cases: document 01's, with the answers of the latest stage, those of each request, and those of an operation that a request adds."""
    requests = shared / "vectors-requests"
    if operation in FRAMES:
        return [group_of_frames(requests, operation)]
    stages = [k for k in range(1, STAGE + 1) if (requests / ("stage-%d" % k)).is_dir()]
    folders = [requests / ("stage-%d" % k) for k in stages]
    latest = folders[-1] / "old" if folders else shared / "vectors"
    found = [group_of_document_01(shared, latest, operation)]
    found += [group_of_request(k, folder, operation) for k, folder in zip(stages, folders)]
    found.append(group(operation, requests / (operation + ".cases"), requests / (operation + ".answers")))
    return [g for g in found if g.rows]


def is_ordered(operation):
    """Whether the order of what an answer lists is fixed: document 01 leaves that of menu's positions open, and request 2 fixes it."""
    return operation != "menu" or STAGE >= 2
