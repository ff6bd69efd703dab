"""Guards: edits of the code and of the definitions that the prover must refuse, each for a fact that is false then.

An edit file crates/NAME/must-fail/LABEL.edit holds blocks. `rt` reads the file:, old: and new: lines alone and tries the whole
file in one run; the other lines say what each block is for:

    guard: second_mask_allowed
    of: 18 condition
    at: judge_chunk returns-4
    why: with a mask seen before, the row of 18 is given and the code goes on
    file: src/lib.rt
    old: ..
    new: ..

guard:  a name, once in its crate.
of:     what it guards: rows of the refusal table by number, with condition, place or order; or a try in words. More, by ';'.
at:     the function, or the file of laws, and the goal, the fact that it rests on, or the law, at which it must be refused. Rattle names a
        goal by the tests on the way to it; where the guard changes such a test, it is the name before the change (trying.py) or after it.
why:    why that goal is false then. Needed where the prover names no numbers at which it fails.
A block may have several old:/new: pairs: two tests that change places.
"""

import re
from pathlib import Path

ROOT = Path(__file__).resolve().parents[2]
FIELDS = ("of", "at", "why")

# A refusal that says only that the proof's text no longer fits the code: it shows nothing of what the code means.
VOID = (
    "was not admitted",
    "has no field",
    "that can be named from here",
    "is not in scope",
    "is applied to an argument",
    "was not determined",
    "unsolved",
    "is not determined",
    "is not yet determined",
    "expected type `tie.",
    "no occurrence",
    "`rw`: no part of",
    "explicit arguments more than",
    "is already declared",
)
# What the prover says where it has numbers at which everything known holds and the goal does not.
NUMBERS = (
    "All of that holds, and",
    "The hypotheses hold, and the goal fails",
    "the facts known there allow values at which this goal is false",
)


class Guard:
    def __init__(self, crate, label, name):
        self.crate, self.label, self.name = crate, label, name
        self.of = self.at = self.why = ""
        self.pairs = []

    @property
    def place(self):
        return f"{self.crate}/{self.label}: {self.name}"


def read_edit(path):
    """The blocks of an edit file, and what is wrong with it."""
    crate, label = path.parents[1].name, path.stem
    guards, faults, file, old = [], [], None, None
    for number, line in enumerate(path.read_text().splitlines(), 1):
        key, _, rest = line.partition(":")
        rest = rest[1:] if rest.startswith(" ") else rest
        if key == "guard":
            guards.append(Guard(crate, label, rest.strip()))
        elif key in FIELDS and guards:
            setattr(guards[-1], key, rest.strip())
        elif key == "file":
            file = rest
        elif key == "old":
            old = rest
        elif key == "new":
            if not guards or file is None or old is None:
                faults.append(f"{path.relative_to(ROOT)}:{number}: a pair that stands in no guard's block")
            else:
                guards[-1].pairs.append((file, old, rest))
            old = None
    if not guards:
        faults.append(f"{path.relative_to(ROOT)}: no guard: line")
    for guard in guards:
        if len(guard.at.split()) != 2:
            faults.append(f"{guard.place}: its at: line names no function and need")
        if not guard.of:
            faults.append(f"{guard.place}: it has no of: line")
        if not guard.pairs:
            faults.append(f"{guard.place}: it changes nothing")
    return guards, faults


def all_guards(only=()):
    """The guards of some crates, or of all where none is named, and what is wrong with their files."""
    guards, faults = [], []
    for path in sorted(ROOT.glob("crates/*/must-fail/*.edit")):
        if only and path.parents[1].name not in only:
            continue
        found, wrong = read_edit(path)
        guards += found
        faults += wrong
    names = [f"{g.crate}/{g.name}" for g in guards]
    faults += [f"{name}: two guards of this name" for name in sorted({n for n in names if names.count(n) > 1})]
    return guards, faults


def unproved(line):
    """The goals that a line of a log names as not proved, and for which no answer is written."""
    match = re.match(r"note: (?:\./)?src/\S+:\d+:\d+: it is not proved that .*\((`[^()]+`)\)", line)
    return re.findall(r"`([^`]+)`", match[1]) if match else []


def entries(log):
    """The errors of a check's log: (function or file of laws, goal or law, message with the lines under it)."""
    found, waiting, under = [], [], None
    for line in log.splitlines():
        if line.startswith(" "):
            if under:
                under[2] += "\n" + line
            continue
        under = None
        # an answer, an invariant or a law that was refused
        if match := re.match(r"(?:\S*/)?proofs/(\S+?)\.antt:\d+:\d+: error: `([^`]+)`: (.*)", line):
            # (the proof of a function that calls itself stands in +NAME)
            under = [re.sub(r"/(Answers|Invariants|Proof)$", "", match[1]).replace("+", ""), match[2], match[3]]
            found.append(under)
        # a goal that no answer was written for, and that `search` did not prove: the line of its function follows
        elif goals := unproved(line):
            waiting += [[goal, f"`search` did not prove it{line.rpartition(')')[2]}"] for goal in goals]
        elif match := re.match(r"fn (\S+): (.*)", line):
            function = match[1].split("::")[-1]
            if match[2].startswith("no"):
                found += [[function, *goal] for goal in waiting]
                for goals in re.findall(r"`search` did not prove ([^;]*)", match[2]):
                    found += [[function, goal, "`search` did not prove it"] for goal in re.findall(r"`([^`]+)`", goals)]
            waiting = []
    return found


def messages(guard, log, goal=None):
    """What a check's log says against the guard's goal, which may have another name there."""
    function, named = guard.at.split()
    return [m for file, name, m in entries(log) if name == (goal or named) and (file == function or file.endswith("/" + function))]


def refusal(guard, log, goal=None):
    """How the guard was refused: numbers, search or types; or what is wrong, and then None."""
    found = messages(guard, log, goal)
    if not found:
        return None, f"no error at {guard.at}"
    facts = [message for message in found if not any(void in message for void in VOID)]
    if not facts:
        return None, f"{guard.at} was refused for its text alone: {found[0].splitlines()[0][:160]}"
    if any(numbers in message for message in facts for numbers in NUMBERS):
        return "numbers", ""
    return ("search" if any("`search`" in message for message in facts) else "types"), ""
