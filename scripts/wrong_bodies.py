"""Wrong bodies: edits of a crate that the prover must refuse (crates/NAME/must-fail/*.edit).

An edit is a line `file: src/..` and pairs of lines `old: TEXT`, `new: TEXT`; each old text stands in the file once. It is
tried on a copy of the crate, over the proved libraries below it: first the edited functions alone, or those that name an
edited constant, with what they call, and where these are still proved, the whole crate. It counts as refused only where a goal was not proved, and not where a proof
file merely names what the edit took away.

Wrong bodies of different functions are tried together, by one check, and each whose function meets no goal that refuses it
once more alone.

wrong-bodies.txt says for each crate the sum (sums.py) under which all of its wrong bodies were last refused.
"""
import fcntl
import hashlib
import os
import re
import shutil
import subprocess
import sys
import tempfile
import threading
import time
from concurrent.futures import ThreadPoolExecutor

sys.dont_write_bytecode = True
from proving import use_kept
from sums import WORD, split_generics, statements, sum_of
from toolchain import below, checked_over, crates_of, kit_folder, text_of

PARTS = ("src", "specs", "proofs")


# --- what is recorded

RECORD = "wrong-bodies.txt"
HEADING = "# NAME SUM: under this sum all wrong bodies of the crate were refused. ./prove --wrong-bodies writes it.\n"


def recorded(top):
    try:
        rows = text_of(f"{top}/{RECORD}").split("\n")
    except OSError:
        return {}
    return {it.split()[0]: it.split()[1] for it in rows if re.fullmatch(r"\w+ [0-9a-f]{16}", it)}


def record(top, tried, sums):
    """Writes the lines of the crates that were tried: the sum of each, or no line where it has none. The lines of the others stay."""
    crates = crates_of(top)
    with open(f"{top}/{RECORD}", "a+", encoding="utf-8") as file:
        fcntl.flock(file, fcntl.LOCK_EX)
        rows = {**{it: sum for it, sum in recorded(top).items() if it not in tried}, **sums}
        rows = [f"{it} {rows[it]}\n" for it in crates if it in rows and crates[it].edits()]
        file.truncate(0)
        file.write(HEADING + "".join(rows))


# --- edits


def edited(folder, edit, over={}):
    """The texts that an edit leaves, by path, over these in place of the crate's own, with the places of its changes in the old texts; or why it cannot be applied."""
    path, old, texts, places = "", None, dict(over), []
    for line in text_of(edit).split("\n"):
        word, _, rest = line.partition(": ")
        if word == "file":
            path = rest.strip()
            if not path.startswith("src/") or os.path.normpath(path) != path or not os.path.isfile(f"{folder}/{path}"):
                return None, f"there is no file {path} below src/"
        elif word == "old":
            old = rest
        elif line.startswith("new:"):
            if not path or not old:
                return None, "a line `new:` stands before `file:` or `old:`"
            text = texts.get(path) or text_of(f"{folder}/{path}")
            if text.count(old) != 1:
                return None, f"an old text stands in {path} {text.count(old)} times"
            places.append((path, text, text.index(old) + len(old) - len(old.lstrip())))
            texts[path], old = text.replace(old, line[5:]), None
    return (texts, places) if places else (None, "it has no pair `old:`, `new:`")


def impl_name(header, module, homes):
    """The path under which a check prints the functions of an impl or of a trait that stands in a module. `homes` has the module of each type."""
    header = re.sub(r"^(pub\s+)?(unsafe\s+)?", "", " ".join(header.split())).rstrip("{ ")
    header = re.split(r"\bwhere\b", header)[0].strip()
    join = lambda *it: "::".join(word for word in it if word)
    if header.startswith("trait "):
        return join(module, WORD.findall(header)[1])
    generics, rest = split_generics(header[len("impl") :])
    parameters = {it for part in generics.split(",") for it in WORD.findall(part)[:1]}
    rest, named, name = rest.partition(" as ")
    if named:
        return join(module, WORD.search(name)[0])
    trait, found, of = rest.partition(" for ")
    words = lambda text: [it for it in WORD.findall(re.sub(r"(\w+\s*::\s*)+", "", text)) if it not in parameters]
    if not found:
        own = words(rest)[0]
        return join(homes.get(own, module), own)
    return join(module, (words(of) or [""])[0] + "".join(words(trait)))


def function_at(text, place, module, homes):
    """The path of the function that the place stands in, in a formatted source, or none."""
    lines = text.split("\n")
    row = text.count("\n", 0, place)
    for at in range(row, -1, -1):
        head = re.match(r"( {0}| {4})(?:pub(?:\([^)]*\))? )?(?:(?:const|unsafe|final) )*fn (\w+)", lines[at])
        if not head:
            continue
        ends = [it for it in range(at, len(lines)) if lines[it] == f"{head[1]}}}" or it == at and re.search(r"[;}]$", lines[it])]
        if not ends or ends[0] < row:
            return None
        if not head[1]:
            return f"{module}::{head[2]}" if module else head[2]
        for top in range(at, -1, -1):
            if re.match(r"(pub )?(unsafe )?(impl|trait)\b", lines[top]):
                end = next((it for it in range(top, at) if lines[it].endswith("{")), top)
                return f"{impl_name(' '.join(lines[top : end + 1]), module, homes)}::{head[2]}"
        return None
    return None


def module_of(path):
    words = path[len("src/") : -len(".rt")].split("/")
    return "::".join(it for it in words if it not in ("lib", "main", "mod"))


def homes_of(crate):
    """The module of each type of a crate."""
    found = {}
    for file in crate.files("src"):
        for it in re.findall(r"(?m)^(?:pub(?:\([^)]*\))? )?(?:struct|enum|union) (\w+)", text_of(file)):
            found[it] = module_of(os.path.relpath(file, crate.folder))
    return found


def users_of(crate, text, place, homes):
    """The functions of the crate that name the constant whose line the place stands in, each with its module; none where it is no constant's."""
    line = text[text.rfind("\n", 0, place) + 1 :].partition("\n")[0]
    constant = re.match(r"\s*(?:pub(?:\([^)]*\))? )?const (\w+)", line)
    found = {}
    for file in crate.files("src") if constant else []:
        source, module = text_of(file), module_of(os.path.relpath(file, crate.folder))
        for it in re.finditer(rf"\b{constant[1]}\b", source):
            name = function_at(source, it.start(), module, homes)
            if name:
                found[name] = module
    return found


def asked_for(crate, places):
    """The functions that an edit changes, or that name a constant which it changes, each with the module that it stands in; nothing where it changes what is neither."""
    found, homes = {}, homes_of(crate)
    for path, text, place in places:
        name = function_at(text, place, module_of(path), homes)
        users = {name: module_of(path)} if name else users_of(crate, text, place, homes)
        if not users:
            return {}
        found |= users
    return found


# --- trials


class Trial:
    """One wrong body, and what came of it: `refused`, `proved` or `bad`, with the goal or the reason."""

    def __init__(self, crates, name, edit):
        self.crates, self.crate, self.edit = crates, crates[name], edit
        self.label = f"{name}/{os.path.basename(edit)[: -len('.edit')]}"
        self.came, self.told, self.seconds = "bad", "it was not tried", 0
        self.texts, places = edited(crates[name].folder, edit)
        # The functions that it changes; none stands for the whole crate.
        self.only, self.fault = ({}, places) if self.texts is None else (asked_for(crates[name], places), None)
        self.functions = [*self.only]

    def is_of_bodies(self):
        """Whether it changes nothing but bodies of functions, each with a proof of its own: those that call themselves or one another have one proof."""
        texts = [(text_of(f"{self.crate.folder}/{it}"), text) for it, text in (self.texts or {}).items()]
        return bool(self.only) and all("#[cycle" not in old and statements(old) == statements(new) for old, new in texts)

    def run(self, kept):
        began = time.monotonic()
        if self.fault:
            self.told = self.fault
            return
        if self.only:
            self.came, self.told = judged(check_functions([self], self.texts, kept), self.texts)
        if not self.only or self.came != "refused":
            self.came, self.told = judged(check(self.crates, self.crate, self.texts, kept, []), self.texts)
            self.told += " (by a check of the whole crate)" * (self.came == "refused")
        self.seconds = time.monotonic() - began


def check_functions(trials, texts, kept):
    """Checks the functions that these trials change, and what they call. A function that the check knows by another name is asked for by its module."""
    while True:
        only = list(dict.fromkeys(path for it in trials for path in it.only))
        ran = check(trials[0].crates, trials[0].crate, texts, kept, only)
        last = ran.stdout.rstrip("\n").split("\n")[-1]
        unknown = re.search(r"`([^`]*)`", last.partition(" has no ")[2])
        if ran.returncode != 2 or not unknown or unknown[1] not in only:
            return ran
        for it in trials:
            module = it.only.pop(unknown[1], None)
            if module is not None:
                it.only[module] = module


def check(crates, crate, texts, kept, only):
    """Checks a copy of the crate with these texts in place of its own, over what is kept there: these functions with what they call, or all."""
    words = [f"{kit_folder()}/bin/rattle", "check", *checked_over(crates, crate), "--jobs", "1", "--incremental", kept]
    for it in only:
        words += ["--only", it]
    with tempfile.TemporaryDirectory(prefix="wrong-body-") as room:
        for part in PARTS:
            if os.path.isdir(f"{crate.folder}/{part}"):
                shutil.copytree(f"{crate.folder}/{part}", f"{room}/{part}")
        for path, text in texts.items():
            with open(f"{room}/{path}", "w", encoding="utf-8") as it:
                it.write(text)
        how = {"cwd": room, "stdin": subprocess.DEVNULL, "stdout": subprocess.PIPE, "stderr": subprocess.STDOUT}
        return subprocess.run(words, errors="replace", **how)


PLACE = r"(?:note: )?(?:\./)?((?:src|specs|proofs)/\S+?):\d+:\d+: "
# What antt says where it cannot read a text, or a proof file names what is no more there.
UNREAD = r"is not in scope|has no field|is no name|operand is missing|expected the end|cannot continue"
LOST = r"has no field|is not in scope|has no `|was not admitted"


def goals_of(ran, texts):
    """The goals of a check that were not proved, as it told them, and its errors; or no goals and why there can be none, where the edited text cannot be read."""
    lines = ran.stdout.rstrip("\n").split("\n")
    errors = [it for it in lines if re.match(PLACE + "error", it)]
    for it in errors:
        path, said = re.match(PLACE, it)[1], re.sub(r"`[^`]*`", "", it)
        if (path in texts or path.startswith(("src/", "specs/"))) and re.search(UNREAD, said):
            return None, f"the edited text cannot be read: {it[:300]}"
    goals = [it for it in lines if re.match(r"note: (\./)?src/\S+: it is not proved that", it)]
    goals += [it for it in errors if not (it.startswith(("./proofs/", "proofs/")) and re.search(LOST, it))]
    # A loop that is not shown to end.
    return goals + [it for it in lines if re.match(r"fn \S+: no proof: expected a measure", it)], errors


def shown_goal(goal):
    return re.sub(r"^(note: )?(\./)?", "", goal)[:200]


def judged(ran, texts):
    """What a check of an edited crate says of the edit."""
    lines = ran.stdout.rstrip("\n").split("\n")
    last = re.fullmatch(r"only=(\d+) proved=(\d+)", lines[-1])
    if ran.returncode == 0:
        return "proved", "the crate is still proved with it"
    if ran.returncode != 1 or not (last or lines[-1].startswith("logic=not-proved")):
        return "bad", f"it did not reach the prover: {' / '.join(lines[-3:])[:400]}"
    goals, errors = goals_of(ran, texts)
    if goals is None:
        return "bad", errors
    if goals:
        return "refused", shown_goal(goals[0])
    first = [*errors, *[it for it in lines if it.startswith("fn ") and not it.endswith(": proved")], *lines][0]
    return "bad", f"only a proof file no longer fits, so no goal was tried: {first[:300]}"


def lanes():
    """How many trials run side by side: one a processor, or as many as RT_JOBS says, and as memory holds."""
    number = os.environ.get("RT_JOBS", "")
    memory = int(re.search(r"MemAvailable:\s+(\d+)", text_of("/proc/meminfo"))[1]) // 3_000_000
    return max(1, min(int(number) if number.isdigit() else len(os.sched_getaffinity(0)), memory))


def built_at(crate):
    """When the crate was proved here, so that its library or its program was built, or nothing."""
    made = [f"{crate.folder}/{crate.libraries}/{crate.name}{it}" for it in (".rlib/format", "")] + [f"{crate.folder}/out/{crate.name}"]
    return next((os.path.getmtime(it) for it in made if os.path.isfile(it)), None)


def is_built(crate):
    """Whether the crate was proved here."""
    return built_at(crate) is not None


# How many wrong bodies one check tries at most.
MOST_TOGETHER = 10


class Batch:
    """Wrong bodies of different functions of one crate, which one check tries. A function is proved over the contracts of the others, so none changes what
    is said of another's. Each whose function meets no goal that refuses it is tried again, alone."""

    def __init__(self, trial):
        self.trials, self.crate, self.texts = [trial], trial.crate, trial.texts

    def takes(self, trial):
        """Takes the wrong body, if it can be tried with the others."""
        if not (self.trials[0].is_of_bodies() and trial.is_of_bodies()) or len(self.trials) == MOST_TOGETHER:
            return False
        texts, _ = edited(trial.crate.folder, trial.edit, self.texts)
        if trial.crate is not self.crate or texts is None or any(set(it.only) & set(trial.only) for it in self.trials):
            return False
        self.trials, self.texts = [*self.trials, trial], texts
        return True

    def run(self, kept):
        began = time.monotonic()
        if not is_built(self.crate):
            for it in self.trials:
                it.told = "without the edit the crate is not proved here"
            return
        if len(self.trials) > 1:
            ran = check_functions(self.trials, self.texts, kept)
            came, told = judged(ran, self.texts)
            goals = goals_of(ran, self.texts)[0] if came == "refused" else []
            for it in self.trials:
                mine = [goal for goal in goals if self.owner_of(goal) is it]
                if mine:
                    it.came, it.told = "refused", shown_goal(mine[0])
            took = (time.monotonic() - began) / len(self.trials)
            for it in self.trials:
                it.seconds = took
        for it in self.trials:
            if it.came != "refused":
                it.run(kept)

    def owner_of(self, goal):
        """The wrong body in whose function, or in whose proof, a goal stands that was not proved, or none."""
        at = re.match(r"(?:note: )?(?:\./)?(src|proofs)/(\S+?):(\d+):\d+: ", goal)
        path = at and f"{at[1]}/{at[2]}"
        if not at:
            name = re.match(r"(?:fn )?(\S*?):? ", goal)[1].removeprefix(f"{self.crate.name}::")
        elif at[1] == "proofs":
            # The proof of a function that calls itself stands in a folder with a plus.
            name = os.path.dirname(at[2]).replace("+", "").replace("/", "::")
        elif path in self.texts:
            place = sum(len(row) + 1 for row in self.texts[path].split("\n")[: int(at[3]) - 1])
            name = function_at(self.texts[path], place, module_of(path), homes_of(self.crate))
        else:
            return None
        return next((it for it in self.trials if name and (name in it.functions or name in it.only)), None)


def batches(trials):
    """The trials in batches of neighbours, in which each wrong body stands once."""
    found = []
    for trial in trials:
        if not any(it.takes(trial) for it in found):
            found.append(Batch(trial))
    return found


class Lanes:
    """Batches of trials side by side. A lane goes on with its crate, over what it has checked of it before, and then takes one that no other lane has, or else
    shares one of which there are two or more left: who has checked nothing of a crate takes longer than the lane that has it. All are tried over crates that are proved as
    they are."""

    def __init__(self, trials, tell, until):
        self.left, self.tell, self.until = batches(trials), tell, until
        self.lock, self.crate_of = threading.Lock(), {}

    def next(self, number):
        """The batch that the lane takes next, or none."""
        with self.lock:
            if not self.left or self.until and time.monotonic() > self.until:
                return None
            mine, others = self.crate_of.get(number), {it for lane, it in self.crate_of.items() if lane != number}
            of = lambda crate: [it for it in self.left if it.crate is crate]
            unshared = [it for it in self.left if it.crate not in others]
            batch = next(iter(of(mine) or unshared or [it for it in self.left if len(of(it.crate)) > 1]), None)
            if batch is None:
                return None
            self.left.remove(batch)
            self.crate_of[number] = batch.crate
            return batch

    def lane(self, number, room):
        kept = name = None
        while batch := self.next(number):
            if name != batch.crate.name:
                shutil.rmtree(kept or f"{room}/none", ignore_errors=True)
                name, kept = batch.crate.name, f"{room}/{batch.crate.name}.{number}"
                os.mkdir(kept)
            batch.run(kept)
            with self.lock:
                for trial in batch.trials:
                    self.tell(trial)


def try_all(trials, tell, until=None):
    """Runs trials, and returns those that were not begun by then."""
    with tempfile.TemporaryDirectory(prefix="wrong-bodies-") as room:
        work = Lanes(trials, tell, until)
        with ThreadPoolExecutor(lanes()) as pool:
            for it in [pool.submit(work.lane, at, room) for at in range(lanes())]:
                it.result()
    return [it for batch in work.left for it in batch.trials]


# --- what is due


def groups(crates):
    """All wrong bodies, in ten groups of neighbours, so that a group is of few crates."""
    every = [(name, edit) for name in crates for edit in crates[name].edits()]
    return [every[len(every) * it // 10 : len(every) * (it + 1) // 10] for it in range(10)]


def due(crates, known, commit):
    """The trials that must be made, since something changed under them, and those of the others whose turn it is."""
    changed = [it for it in crates if crates[it].edits() and known.get(it) != sum_of(crates, it)]
    turn = int(hashlib.sha256(commit.encode()).hexdigest(), 16) % 10
    must = [Trial(crates, name, edit) for name in changed for edit in crates[name].edits()]
    rest = [Trial(crates, name, edit) for name, edit in groups(crates)[turn] if name not in changed]
    return changed, must, rest


def say(trial):
    words = {"refused": "refused", "proved": "NOT REFUSED", "bad": "NO TRIAL"}
    print(f"wrong body {trial.label} ({trial.seconds:.0f} s): {words[trial.came]}: {trial.told}", flush=True)


def count(trials):
    passed = sum(it.came == "refused" for it in trials)
    print(f"{passed} passed, {len(trials) - passed} failed")
    return 0 if passed == len(trials) else 1


def try_due(top, tree, commit, minutes, due_minutes):
    """Tries what is due of the repository at top, over the proved crates of a copy. What only has its turn is not begun after so many minutes, and what is
    due not after so many others: it stays due, since nothing is recorded here."""
    crates = crates_of(tree)
    changed, must, rest = due(crates_of(top), recorded(top), commit)
    for it in [*must, *rest]:
        it.crates, it.crate = crates, crates[it.crate.name]
    print(f"wrong bodies: {len(must)} of changed crates ({' '.join(changed) or 'none'}), and {len(rest)} of the others in their turn", flush=True)
    began = time.monotonic()
    left = try_all(must, say, began + 60 * due_minutes)
    left += try_all(rest, say, began + 60 * minutes)
    if left:
        print(f"wrong bodies left out, since the time was up: {' '.join(it.label for it in left)}")
    return count([it for it in [*must, *rest] if it not in left])


def copy_proved(crates, names, tree):
    """Copies these crates and those that they stand on, without their wrong bodies, into a folder, and has them proved there by `rt ci`, which keeps
    on this machine what it has proved: so of what the gate has proved before nothing is proved again."""
    needed = [it for it in crates if it in names or any(it in below(crates, name) for name in names)]
    for it in needed:
        shutil.copytree(crates[it].folder, f"{tree}/crates/{it}", ignore=lambda at, files: {"out", "must-fail"} & set(files))
    shutil.copy(f"{crates[needed[0]].top}/HANDLES", tree)
    with open(f"{tree}/crates.txt", "w", encoding="utf-8") as made:
        made.writelines(f"{it}: {' '.join(crates[it].parts)}\n" for it in needed)
    print(f"wrong bodies: proving {' '.join(needed)}, where that is not kept ..", flush=True)
    how = {"stdin": subprocess.DEVNULL, "stdout": subprocess.PIPE, "stderr": subprocess.STDOUT, "errors": "replace"}
    ran = subprocess.run(["rt", "ci"], cwd=tree, **how)
    if ran.returncode or not re.search(r"(?m)^[1-9]\d* passed, 0 failed$", ran.stdout):
        print(ran.stdout)
        raise SystemExit("wrong bodies: the crates are not proved")
    return crates_of(tree)


def same_proved(crates, names, tree):
    """The crates of a tree in which these crates and those that they stand on were proved, of the same sources; what differs, or was not proved, ends the run."""
    if not os.path.isfile(f"{tree}/crates.txt"):
        raise SystemExit(f"wrong bodies: {tree} has no crates.txt")
    proved = crates_of(tree)
    by_build = set(names) <= set(proved) and use_kept(proved, names)
    for name in [it for it in crates if it in names or any(it in below(crates, other) for other in names)]:
        mine, other = crates[name], proved.get(name)
        texts = lambda crate: {os.path.relpath(it, crate.folder): text_of(it) for it in crate.files(*PARTS)}
        if other is None or mine.parts != other.parts or texts(mine) != texts(other):
            raise SystemExit(f"wrong bodies: {name} is another one in {tree}")
        if not by_build and (not is_built(other) or built_at(other) < max(os.path.getmtime(it) for it in other.files(*PARTS))):
            raise SystemExit(f"wrong bodies: {name}, as it is, was not proved in {tree}")
    return proved


def try_every(top, names, over=None):
    """Tries all wrong bodies of these crates, and records the sums of those whose wrong bodies were all refused. Where a tree is given, over what was proved there,
    and else over what is proved for it."""
    crates = crates_of(top)
    unknown = [it for it in names if it not in crates]
    if unknown:
        raise SystemExit(f"wrong bodies: crates.txt names no crate {unknown[0]}")
    names = [it for it in crates if crates[it].edits() and (it in names or not names)]
    sums = {it: sum_of(crates, it) for it in names}
    trials = [Trial(crates, name, edit) for name in names for edit in crates[name].edits()]
    with tempfile.TemporaryDirectory(prefix="wrong-bodies-") as tree:
        proved = same_proved(crates, names, os.path.realpath(over)) if over else copy_proved(crates, names, tree)
        for it in trials:
            it.crates, it.crate = proved, proved[it.crate.name]
        try_all(trials, say)
    whole = [it for it in names if all(trial.came == "refused" for trial in trials if trial.crate.name == it)]
    record(top, names, {it: sums[it] for it in whole if sum_of(crates, it) == sums[it]})
    return count(trials)


def main(words):
    top = os.path.dirname(os.path.dirname(os.path.realpath(__file__)))
    if words[:2] == ["every", "--over"] and words[2:]:
        return try_every(top, words[3:], words[2])
    if words[:1] == ["every"]:
        return try_every(top, words[1:])
    if words[:1] == ["due"] and len(words) == 5:
        return try_due(top, words[1], words[2], float(words[3]), float(words[4]))
    raise SystemExit("usage: wrong_bodies.py every [--over TREE] [CRATE..] | due TREE COMMIT MINUTES DUE_MINUTES")


if __name__ == "__main__":
    sys.exit(main(sys.argv[1:]))
