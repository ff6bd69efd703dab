"""Tries edits of some crates on copies of these, and keeps all that the prover said of each.

Each edit is tried over what a check of the crate as it stands proved, as rt tries must-fail edits; rt itself keeps one line of what is said.
The logs stand in target/must-fail/CRATE/LABEL/.log, each with the sum of what it was made from: crate, libraries below, kit and edit. Where
that is still the same, the log is not made anew.

Rattle names a goal, and a place that proofs name, by the tests on the way to it: where an edit makes `b == 13` to `b == 12`, the answer
`returns-then-b-eq13` fits no goal any more, and is refused for its text alone. So such an edit is tried once more with the proofs brought to
the new names (`renamed`): then what the answer says is held against what the changed code asks.
"""

import difflib
import hashlib
import re
import shutil
import sys
import tempfile
from pathlib import Path

import guards as G

sys.path.insert(0, str(G.ROOT / "host"))
import kit as K

LOGS = G.ROOT / "target/must-fail"


def applied(crate, guards):
    """The guards whose texts are found, once each, where they are changed in this order; the others."""
    texts, good, bad = {}, [], []
    for guard in guards:
        tried = dict(texts)
        for file, old, new in guard.pairs:
            text = tried.get(file) or (G.ROOT / "crates" / crate / file).read_text()
            if text.count(old) != 1:
                bad.append(guard)
                break
            tried[file] = text.replace(old, new)
        else:
            texts = tried
            good.append(guard)
    return good, bad


def part_that_differs(old, new):
    """Of two names of a goal the words, between dashes, in which they differ, with a word beside them that says of what they are."""
    a, b = old.split("-"), new.split("-")
    start = next((n for n, (x, y) in enumerate(zip(a, b)) if x != y), min(len(a), len(b)))
    end = next((n for n, (x, y) in enumerate(zip(a[start:][::-1], b[start:][::-1])) if x != y), min(len(a), len(b)) - start)
    if a[start - 1] not in ("returns", "then", "else", "in") or start == len(a) - end and end == 0:
        start -= 1
    elif start in (len(a) - end, len(b) - end):
        end -= 1
    return "-".join(a[start : len(a) - end]), "-".join(b[start : len(b) - end])


def renamed(crate, log):
    """What the goals of the changed code are called, where the proofs' names fit none: by function, {old part of a name: new part}."""
    lost, asked, named, function = {}, {}, {}, None
    for folder, goal in re.findall(r"(?m)^(?:\S*/)?proofs/(\S+)/\w+\.antt:\d+:\d+: error: `[^`]+`: .*\.Goals` has no `([^`]+)` that can be named", log):
        lost.setdefault(folder, []).append(goal)
    waiting = []
    for line in log.splitlines():
        if goals := G.unproved(line):
            waiting += goals
        elif match := re.match(r"fn (\S+): ", line):
            function = match[1].split("::")[-1]
            asked.setdefault(function, []).extend(waiting)
            waiting = []
        elif match := re.match(r"help: `Goals` has no `[^`]+`; rattle asks for ([^;]*)", line):
            named.setdefault(function, []).extend(re.findall(r"`([^`]+)`", match[1]))
    found = {}
    for folder, goals in lost.items():
        texts = [path.read_text() for path in (G.ROOT / "crates" / crate / "proofs" / folder).glob("*.antt")]
        answered = {name for text in texts for name in re.findall(r"(?m)^(?:abbrev |pub )*(\S+) :", text)}
        function = folder.split("/")[-1].removeprefix("+")
        for new in asked.get(function, []), named.get(function, []):
            new = [goal for goal in dict.fromkeys(new) if goal not in answered]
            pairs = [(difflib.SequenceMatcher(None, a, b).ratio(), a, b) for a in dict.fromkeys(goals) for b in new]
            for alike, old, goal in sorted(pairs, reverse=True):
                if alike > 0.6 and old in goals and goal in new:
                    goals, new = [it for it in goals if it != old], [it for it in new if it != goal]
                    a, b = part_that_differs(old, goal)
                    found.setdefault(folder, {})[a] = b
    # Two old parts that would get one new part: which of them it belongs to isn't known, so neither follows.
    for names in found.values():
        for new in [new for new in set(names.values()) if list(names.values()).count(new) > 1]:
            for old in [old for old in names if names[old] == new]:
                del names[old]
    return {folder: names for folder, names in found.items() if names}


def by_names(text, names):
    """The text with the new parts of goals' names for the old ones."""
    old = "|".join(re.escape(name) for name in sorted(names, key=len, reverse=True))
    return re.sub(rf"(?<=-)({old})(?![\w'])", lambda match: names[match[1]], text) if names else text


def goal_of(guard, names):
    """The guard's goal by the new names."""
    function, goal = guard.at.split()
    return next((by_names(goal, of) for folder, of in names.items() if folder.split("/")[-1].removeprefix("+") == function), goal)


class Run:
    """One edit, the changes of some guards of a crate together, and its log; with the proofs by new names, where there are such."""

    def __init__(self, crate, label, guards, names, stamp):
        self.crate, self.folder, self.names = crate, LOGS / crate.name / label, names
        self.edit = "".join(f"file: {file}\nold: {old}\nnew: {new}\n" for guard in guards for file, old, new in guard.pairs)
        self.sum = hashlib.sha256(f"{stamp}\n{self.edit}{sorted((f, sorted(n.items())) for f, n in names.items()) or ''}".encode()).hexdigest()

    def proofs(self, texts):
        """The texts of the edited files, and of the proofs by their new names."""
        for folder, names in self.names.items():
            for path in sorted((Path(self.crate.folder) / "proofs" / folder).glob("*.antt")):
                inside = str(path.relative_to(self.crate.folder))
                texts[inside] = by_names(texts.get(inside) or path.read_text(), names)
        return texts

    def kept(self):
        """The log of an earlier run of the same, or None."""
        try:
            if (self.folder / ".sum").read_text() == self.sum:
                return (self.folder / ".log").read_text()
        except OSError:
            pass
        return None

    def keep(self, log):
        shutil.rmtree(self.folder, ignore_errors=True)
        self.folder.mkdir(parents=True)
        (self.folder / ".log").write_text(log)
        (self.folder / ".sum").write_text(self.sum)


class Trying:
    def __init__(self):
        self.kit = K.Kit()
        self.rt, self.stamps = self.kit.rt, {}

    def check(self, run, over):
        """What the prover says of the crate with the edit, over what is proved in that folder, or from nothing; None where it came to no end."""
        texts, why = self.rt.edited(run.edit, run.crate.folder)
        if why:
            return f"the edit can't be applied: {why}\n"
        for _ in range(2):  # one that was killed, most likely for memory, is tried once more
            ran = self.rt.checked(run.crate, run.proofs(texts), ["--jobs", "1"], over)
            if ran.returncode in (0, 1, 3) and not self.rt.rtlib.STALE.search(ran.stdout):
                return ran.stdout
        print(f"guards: {run.folder.relative_to(LOGS)}: the check ended with {ran.returncode}: {ran.stdout[-300:]}")
        return None

    def over_seed(self, run, room):
        if room is None:
            return None  # the crate as it stands is not proved
        with tempfile.TemporaryDirectory(dir=room) as name:
            self.rt.linked(f"{room}/seed", f"{name}/seed")
            return self.check(run, f"{name}/seed")

    def logs(self, wanted, names={}):
        """The log of each edit, {(crate, label): guards}; an empty one where nothing was tried."""
        logs, left = {}, {}
        for (name, label), guards in wanted.items():
            crate = self.kit.crates[name]
            run = Run(crate, label, guards, names.get((name, label), {}), self.rt.stamp_of(crate, self.stamps))
            logs[name, label] = run.kept()
            if logs[name, label] is None:
                left.setdefault(name, {})[label] = run
        with tempfile.TemporaryFile("w+", errors="replace") as said:
            if left and not self.kit.libraries([self.kit.crates[name] for name in left], said):
                said.seek(0)
                print(f"{said.read()}guards: FAILED: a library below is not proved, so nothing was tried")
                left = {}
        tasks, seeds = {}, {}
        for name, runs in left.items():
            crate = self.kit.crates[name]
            needs, lines, start = self.rt.need(crate), crate.count(rb"\n"), self.rt.work_for(crate)
            seed = lambda given, jobs, crate=crate, start=start: self.rt.seeded(crate, ["--jobs", str(jobs)], start)
            tasks[name, "seed"] = ([], lines, needs, seed)
            for label, run in runs.items():
                one = lambda given, jobs, run=run, name=name: self.over_seed(run, given[name, "seed"])
                tasks[name, "edits", label] = ([(name, "seed")], lines, self.rt.OVER * needs, one)
            end = lambda given, jobs, name=name: shutil.rmtree(given[name, "seed"] or "", ignore_errors=True)
            tasks[name, "end"] = ([(name, "edits", label) for label in runs] + [(name, "seed")], 0, 0, end)
        given = self.rt.in_lanes(tasks) if tasks else {}
        for name, runs in left.items():
            for label, run in runs.items():
                logs[name, label] = given[name, "edits", label]
                if logs[name, label] is not None:
                    run.keep(logs[name, label])
        return {key: log or "" for key, log in logs.items()}


def try_edits(wanted):
    """Tries the edits, {(crate, label): guards}; gives the log of each, with the proofs by new names where there are such, and these."""
    if not wanted:
        return {}
    tries = Trying()
    logs = tries.logs(wanted)
    names = {run: renamed(run[0], log) for run, log in logs.items()}
    named = {run: (run[0], f"{run[1]}-named") for run in wanted if names[run]}
    more = tries.logs({to: wanted[run] for run, to in named.items()}, {to: names[run] for run, to in named.items()})
    return {run: (more[named[run]] if run in named else log, names[run]) for run, log in logs.items()}
