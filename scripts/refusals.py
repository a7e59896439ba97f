"""How the prover refuses wrong bodies: what `scripts/wrong-bodies` asks it, and how it reads what is answered.

An edit turns the body of a function, and the prover says of that function alone whether it is still proved, over
a crate that is proved but for it. So several edits are tried in one check, each of another function. A function
that isn't proved since it calls one that isn't says nothing of its own edit.
"""
import collections
import concurrent.futures
import os
import pathlib
import re
import shutil
import subprocess
import tempfile
import threading

# As many edits in one check at most: each check reads the libraries anew, and a fault of one edit stops all.
MOST = 12
BEGUN = re.compile(r"^(\s*)(?:pub(?:\(\w+\))? )?(?:const |unsafe )*fn (\w+)")
IMPL = re.compile(r"^impl\b(.*)$")
ITEM = re.compile(r"^(\s*)(?:pub\b|fn\b|impl\b|struct\b|enum\b|use\b|mod\b|const\b|type\b|trait\b|//|#\[|unsafe fn\b)")
VERDICT = re.compile(r"^fn (\S+?): (proved|not proved|no proof|could not tell)(.*)$", re.MULTILINE)
UNPROVED = re.compile(r"^note: (\S+?):(\d+):\d+: it is not proved that .*?\(`([^`]+)`\)", re.MULTILINE)
FAULT = re.compile(r"^(?:\./)?(\S+?):(\d+):\d+: error: (?:`([^`]+)`: )?(.*)", re.MULTILINE)
SOUGHT = re.compile(r"`search` did not prove ((?:`[^`]+`(?:, | and )?)+)")
# What an error says where an edit took away a name that a written answer cites: it tells little of the contract.
NAMES = re.compile(r"has no field|is not in scope|has no `|was not admitted")
# A function that lets go, inside another value, of one whose drop has a `requires` gets no proof at all.
DROPPED = re.compile(r"does not cover this function yet: .*?`(\S+?)::drop` to drop a value, and that `drop` has a `requires`")
ENDED = re.compile(r"^(?:only=(\d+) proved=(\d+)|logic=(?:not-)?proved.*)$", re.MULTILINE)
REFUSED, SURVIVED, UNTRIED, ALONE = "refused", "survived", "not tried", "alone"
BY_NAME = "by a name alone, which a written answer cites: it says little of the contract"

Function = collections.namedtuple("Function", "first last names")


def without_parameters(text):
    """The head of an impl without what stands between angle brackets."""
    while (shorter := re.sub(r"<[^<>]*>", "", text)) != text:
        text = shorter
    return text


def owner_of(lines, at):
    """What methods of the impl round this line are called after: `Type`, or `TypeTrait` but for `Drop`; else None."""
    for line in reversed(lines[:at]):
        if line.startswith("}"):
            return None
        if head := IMPL.match(line):
            words = re.findall(r"\w+", without_parameters(head[1]).split(" where ")[0])
            words = [it for it in words if it not in ("mut", "dyn", "crate", "std", "super")]
            return words[-1] + words[-3] if "for" in words[1:-1] and words[-3] != "Drop" else words[-1]
    return None


def last_of(lines, first, indent):
    """The last line of the item that begins at this one: the next item that isn't inside begins behind it."""
    for at in range(first + 1, len(lines)):
        item = ITEM.match(lines[at])
        if item and len(item[1]) <= len(indent) or indent and lines[at].startswith("}"):
            return at - 1
    return len(lines) - 1


def functions_of(text, module, known):
    """The functions of a file of this module, each with its lines and what a check may call it."""
    lines = text.splitlines()
    for first, line in enumerate(lines):
        if begun := BEGUN.match(line):
            owner = owner_of(lines, first) if begun[1] else None
            # A `+` is in the names of drops that the checker makes for types of other crates.
            alike = [it for it in known if it.split("::")[-1] == begun[2] and "+" not in it]
            own = [it for it in alike if it.split("::")[-2] == (owner or module)]
            # What an impl is of stands behind its type's name, as in `OfReceiveOperationUnit`.
            own = own or [it for it in alike if owner and it.split("::")[-2].startswith(owner)]
            yield Function(first, last_of(lines, first, begun[1]), frozenset(own or alike))


def turned_lines(body, top):
    """The lines of each file that the edit changes, as they read then, by file and number from 0."""
    changed = {}
    for file in dict.fromkeys(it[0] for it in body.pairs):
        before = (top / "crates" / body.crate / file).read_text().splitlines()
        after = body.turned(top, file).splitlines()
        changed[file] = {at: new for at, (old, new) in enumerate(zip(before, after)) if old != new}
    return changed


class Attempt:
    """One edit on its way: its changed lines, and the functions that it turns."""

    def __init__(self, body, top, known):
        self.body, self.changed, self.functions = body, turned_lines(body, top), []
        self.is_whole = False
        for file, lines in self.changed.items():
            place = top / "crates" / body.crate / file
            module = body.crate if place.stem in ("lib", "main") else place.stem
            inside = list(functions_of(place.read_text(), module, known))
            for at in lines:
                round_it = [(file, it) for it in inside if it.first <= at <= it.last and it.names]
                self.is_whole |= not round_it
                self.functions += round_it[-1:]
        self.names = frozenset(name for _, it in self.functions for name in it.names)

    def fits_beside(self, others):
        """Whether no other turns a function, or a line, of its own."""
        return not self.is_whole and not any(it.is_whole or self.names & it.names for it in others)

    def says(self, told):
        """What the prover said of its functions: the outcome, and by which clause."""
        files = {(file, at) for file, it in self.functions for at in range(it.first + 1, it.last + 2)}
        rooms = {f"proofs/{'/'.join(name.split('::')[1:])}/" for name in self.names}
        verdicts = {name: (kind, more) for name, kind, more in VERDICT.findall(told)}
        own = [verdicts[it] for it in self.names if it in verdicts]
        goals = [goal for file, line, goal in UNPROVED.findall(told) if (file, int(line)) in files]
        faults = [it for it in FAULT.findall(told) if any(it[0].startswith(room) for room in rooms)]
        goals += [goal for _, _, goal, text in faults if goal and not NAMES.search(text)]
        goals += [goal for _, more in own for listed in SOUGHT.findall(more) for goal in re.findall(r"`([^`]+)`", listed)]
        if goals:
            return REFUSED, clauses_of(goals)
        if dropped := [it for _, more in own for it in DROPPED.findall(more)]:
            return REFUSED, f"by the drop of `{dropped[0]}`, which has a `requires`"
        if faults:
            return REFUSED, BY_NAME
        if own and all(kind == "proved" for kind, _ in own):
            return SURVIVED, "still proved"
        return ALONE, "; ".join(f"{kind}{more}" for kind, more in own) or "no verdict"


def clauses_of(goals):
    """The clauses that these goals are of, in words."""
    found = dict.fromkeys(clause_of(goal) for goal in goals)
    return "by " + ", ".join(found)


def clause_of(goal):
    """The clause that a goal is of, in words."""
    if "-clause-" in goal:
        return f"clause {goal.split('-clause-')[-1]}"
    if goal.startswith("returns"):
        return "its only clause"
    if goal.startswith("invariant_of"):
        return "the type's invariant"
    if goal.endswith("-requires"):
        return f"what {goal.removesuffix('-requires')} requires"
    return f"a step of its proof, {goal}"


class Lane:
    """A copy of one crate beside all others, in which one check runs at a time."""

    def __init__(self, top, crate, folder):
        self.top, self.crate, self.room = top, crate, pathlib.Path(folder) / "crates" / crate
        self.room.parent.mkdir(parents=True)
        for name in ("crates.txt", "HANDLES"):
            shutil.copy(top / name, folder)
        # Nothing writes into the others, so their files are shared. Their folders aren't: `rt` locks those.
        for other in (top / "crates").iterdir():
            own = other.name == crate
            left = ["must-fail"] if own else ["must-fail", "incremental"]
            ignored = shutil.ignore_patterns(*left)
            shutil.copytree(other, self.room.parent / other.name, ignore=ignored, copy_function=shutil.copy2 if own else os.link)

    def check(self, attempts, flags):
        """What a check prints with these edits made, which are taken back afterwards."""
        lines = collections.defaultdict(dict)
        for it in attempts:
            for file, changed in it.changed.items():
                lines[file] |= changed
        for file, changed in lines.items():
            whole = (self.top / "crates" / self.crate / file).read_text().splitlines()
            text = "\n".join(changed.get(at, line) for at, line in enumerate(whole))
            (self.room / file).write_text(text + "\n")
        ran = subprocess.run(["rt", "check", "--jobs", "1", *flags], cwd=self.room, capture_output=True, text=True, check=False)
        for file in lines:
            shutil.copy(self.top / "crates" / self.crate / file, self.room / file)
        return ran.stdout + ran.stderr


def try_alone(lane, attempt):
    """What becomes of one edit: by its functions, or by the whole crate where they don't decide."""
    said = None
    if not attempt.is_whole:
        told = lane.check([attempt], [f"--only={name}" for name in attempt.names])
        if not ENDED.search(told):
            return UNTRIED, f"the compiler refuses it: {first_fault(told)}"
        said = attempt.says(told)
        if said[0] == REFUSED:
            return said
    told = lane.check([attempt], [])
    if "logic=proved" in told:
        return SURVIVED, "the crate is still proved"
    if "logic=not-proved" not in told:
        return UNTRIED, f"the compiler refuses it: {first_fault(told)}"
    goals = [goal for _, _, goal in UNPROVED.findall(told)] + [it[2] for it in FAULT.findall(told) if it[2]]
    return (REFUSED, clauses_of(goals[:3])) if goals else (REFUSED, first_fault(told))


def first_fault(told):
    """The first error of a check, or how it ended."""
    found = [line for line in told.splitlines() if ": error" in line or line.startswith("error")]
    return (found or told.strip().splitlines()[-1:] or ["nothing was said"])[0][:200]


def try_batch(lane, batch):
    """What becomes of these edits, tried in one check; each that it doesn't decide is tried alone.

    A name that is missing may be that of a function which another edit of the batch turned, so it decides nothing here.
    """
    if len(batch) == 1:
        yield batch[0].body, *try_alone(lane, batch[0])
        return
    told = lane.check(batch, [f"--only={name}" for it in batch for name in sorted(it.names)])
    if not ENDED.search(told):
        half = len(batch) // 2
        yield from try_batch(lane, batch[:half])
        yield from try_batch(lane, batch[half:])
        return
    for it in batch:
        outcome, why = it.says(told)
        is_decided = outcome == REFUSED and why != BY_NAME
        yield (it.body, outcome, why) if is_decided else (it.body, *try_alone(lane, it))


def batches_of(attempts):
    """The edits of one crate in groups that one check can try."""
    found = []
    for it in attempts:
        room = next((batch for batch in found if len(batch) < MOST and it.fits_beside(batch)), None)
        if room is None:
            found.append([it])
        else:
            room.append(it)
    return found


def prepared(top, crate, bodies):
    """The groups of a crate's edits; the crate is proved first, with those below, where it isn't."""
    ran = subprocess.run(["rt", "check"], cwd=top / "crates" / crate, capture_output=True, text=True, check=False)
    known = {name for name, kind, _ in VERDICT.findall(ran.stdout) if kind == "proved"}
    if "logic=proved" not in ran.stdout:
        return None, [(it, UNTRIED, f"{crate} itself is not proved: {first_fault(ran.stdout + ran.stderr)}") for it in bodies]
    return batches_of([Attempt(it, top, known) for it in bodies]), []


def refusals(top, bodies, lanes):
    """Tries all these edits, as many checks side by side as lanes: each with what became of it, and by which clause."""
    by_crate = collections.defaultdict(list)
    for it in bodies:
        by_crate[it.crate].append(it)
    here = threading.local()

    def run(crate, batch):
        if getattr(here, "crate", None) != crate:
            if hasattr(here, "folder"):
                here.folder.cleanup()
            here.folder, here.crate = tempfile.TemporaryDirectory(), crate
            here.lane = Lane(top, crate, here.folder.name)
        return list(try_batch(here.lane, batch))

    with concurrent.futures.ThreadPoolExecutor(lanes) as pool:
        asked = []
        for crate, own in by_crate.items():
            groups, untried = prepared(top, crate, own)
            yield from untried
            asked += [pool.submit(run, crate, batch) for batch in groups or []]
        for done in concurrent.futures.as_completed(asked):
            yield from done.result()
