"""Proves the crates that the program depends on, several at once, and builds the program. `./build` calls it.

usage: proving.py [--jobs N]    with at most N processors; else with all that this process may use

A crate starts when the crates below it are proved. The first to start is the one with the longest remaining path: the seconds of
crates.txt, added up to the program. It gets all processors, and so does another whose path is about as long as all that is left; other
crates get one each or those that are free. A crate has the lower priority the shorter its path is. All this as far as memory allows. A crate that is proved stays in its folder out/proved/, and a later run proves only the rest. Of a crate that was not finished nothing
stays: the toolchain keeps parts of a crate only beside libraries that hold whole proofs, over which checks need more time and memory.
The program is crates/cq_cli/out/proved/cq_cli.
"""
import contextlib
import hashlib
import os
import re
import signal
import subprocess
import sys
import tempfile
import time

sys.dont_write_bytecode = True
from toolchain import below, checked_over, crates_of, kit_folder, text_of

TOP = os.path.dirname(os.path.dirname(os.path.realpath(__file__)))
PROGRAM = "cq_cli"
KEPT = "out/proved"
# The most processors that one check makes use of, and what each further one adds to its speed and to its memory.
MOST_JOBS, SPEED_OF_JOB, MEMORY_OF_JOB = 8, 0.6, 0.2
# A remaining path is long if it takes this share of the time that all that is left takes on all processors.
LONG_PATH = 0.9
# The share of the free memory that checks may use.
SHARE_OF_MEMORY = 0.85
# The seconds by the clock that a second of crates.txt takes where nothing is known of the machine, and how many of these seconds count for that.
USUAL_SPEED, USUAL_WEIGHT = 2, 150
# How much a crate gives way to others (`nice`): at most so much, and as its remaining path is shorter than the longest one.
LOWEST_PRIORITY, PRIORITY_OF_PATH = 15, 40


class Task:
    """A crate to be proved: its weight in seconds, the crates below it, its remaining path in seconds, and its memory in bytes."""

    def __init__(self, crate, seconds, memory):
        self.crate, self.name, self.deps = crate, crate.name, crate.deps
        self.seconds, self.rest, self.memory = seconds, seconds, memory
        self.jobs, self.began, self.process, self.log, self.stamp = 0, None, None, None, None

    def memory_with(self, jobs):
        return self.memory * (1 + MEMORY_OF_JOB * (jobs - 1))


def speed_with(jobs):
    return 1 + SPEED_OF_JOB * (jobs - 1) if jobs >= 1 else jobs


def lines_of(crate, ending):
    return sum(text_of(it).count("\n") for it in crate.files("src", "specs", "proofs") if it.endswith(ending))


def memory_of(crates, crate):
    """Returns about the most memory that a check of the crate takes, in bytes."""
    under = sum(lines_of(crates[it], ".rt") for it in below(crates, crate.name))
    return 1_000_000_000 + 600_000 * lines_of(crate, ".rt") + 100_000 * lines_of(crate, ".antt") + 60_000 * under


def free_memory():
    """Returns the free memory in bytes, also under the limit of a control group."""
    found = [1024 * int(re.search(r"MemAvailable:\s+(\d+)", text_of("/proc/meminfo"))[1])]
    for most, used in (("memory.max", "memory.current"), ("memory/memory.limit_in_bytes", "memory/memory.usage_in_bytes")):
        try:
            found.append(int(text_of(f"/sys/fs/cgroup/{most}")) - int(text_of(f"/sys/fs/cgroup/{used}")))
        except (OSError, ValueError):
            pass
    return min(found)


def tasks_of(crates):
    """Returns the tasks of the program's crates by name, lowest first."""
    seconds = {it[1]: int(it[2]) for it in re.finditer(r"(?m)^(\w+):.*# (\d+) s$", text_of(f"{TOP}/crates.txt"))}
    names = [*below(crates, PROGRAM), PROGRAM]
    found = {it: Task(crates[it], seconds.get(it, 1), memory_of(crates, crates[it])) for it in names}
    for task in reversed(found.values()):
        task.rest += max([it.rest for it in found.values() if task.name in it.deps], default=0)
    return found


# --- what is kept


def stamp_of(crates, crate):
    """Returns the sum of all that the proof of a crate depends on: its files, the toolchain, and the libraries below as they were built, whose files
    `format` have the sums of theirs."""
    found = hashlib.sha256(text_of(f"{kit_folder()}/KIT-ID").encode())
    for file in crate.files("src", "specs", "proofs"):
        found.update(f"{os.path.relpath(file, crate.folder)}\n{text_of(file)}\0".encode())
    found.update(" ".join([*crate.of_kit, *crate.deps]).encode())
    for it in crate.deps:
        found.update(text_of(f"{crates[it].folder}/{KEPT}/{it}.rlib/format").encode())
    return found.hexdigest()


def kept_of(crates, names):
    """Returns which of these crates, lowest first, are proved as they are, over libraries that are."""
    found = []
    for crate in [crates[it] for it in names]:
        folder = f"{crate.folder}/{KEPT}"
        made = f"{folder}/{crate.name}" if crate.name == PROGRAM else f"{folder}/{crate.name}.rlib/format"
        if os.path.isfile(made) and os.path.isfile(f"{folder}/stamp") and set(crate.deps) <= set(found):
            found += [crate.name] * (text_of(f"{folder}/stamp") == stamp_of(crates, crate))
    return found


def use_kept(crates, names):
    """Returns true if these crates and those below them are proved in their folders as they are, by ./build, and has checks use these libraries then."""
    needed = list(dict.fromkeys(it for name in names for it in [*below(crates, name), name]))
    if kept_of(crates, needed) != needed:
        return False
    for crate in crates.values():
        crate.libraries = KEPT
    return True


def forget(crate):
    """Removes the stamp of a crate before it is proved anew, so that a stamp never speaks of another library."""
    os.makedirs(f"{crate.folder}/{KEPT}", exist_ok=True)
    with contextlib.suppress(FileNotFoundError):
        os.remove(f"{crate.folder}/{KEPT}/stamp")


def keep(crates, crate, stamp):
    """Writes the stamp of a crate that was proved, unless its files changed meanwhile."""
    if stamp_of(crates, crate) == stamp:
        with open(f"{crate.folder}/{KEPT}/stamp", "w", encoding="utf-8") as file:
            file.write(stamp)


# --- one crate


def words_of(crates, crate, jobs):
    """Returns the command that proves a crate over what the crates below state, and builds its library, or the program's object."""
    made = f"{KEPT}/{crate.name}"
    words = [f"{kit_folder()}/bin/rattle", "build", *checked_over(crates, crate), "--jobs", str(jobs)]
    if crate.name == PROGRAM:
        return [*words, "--toolchain", f"{kit_folder()}/toolchain", "--backend", "llvm", "-o", f"{made}.o"]
    return [*words, "--statements", "-o", f"{made}.rlib"]


def link(crate, log):
    """Links the program, and returns the status."""
    kit, made = kit_folder(), f"{KEPT}/{crate.name}"
    words = [f"{kit}/bin/rattle-link", "--target", "x86_64-unknown-linux-gnu", "--toolchain", f"{kit}/toolchain", "-o", made, f"{made}.o"]
    words += [f"{kit}/c/libos_c.a", f"{kit}/c/liblibc_c.a"]
    return subprocess.run(words, cwd=crate.folder, stdin=subprocess.DEVNULL, stdout=log, stderr=log).returncode


class Group:
    """A group of processes that ends with this process, however that ends: a shell in it waits for the end of a pipe, and then kills them all."""

    def __init__(self):
        reads, self.held = os.pipe()
        how = {"stdout": subprocess.DEVNULL, "stderr": subprocess.DEVNULL}
        self.shell = subprocess.Popen(["sh", "-c", "read _; kill -9 0"], stdin=reads, preexec_fn=os.setpgrp, **how)
        os.close(reads)

    def start(self, words, priority, **how):
        number = self.shell.pid
        return subprocess.Popen(words, preexec_fn=lambda: (os.setpgid(0, number), os.nice(priority)), **how)

    def end(self):
        """Ends the group, once: a signal may come while another one is handled."""
        held, self.held = self.held, None
        if held is not None:
            os.close(held)
            self.shell.wait()


class Build:
    """A run over all tasks: what is done, what is at work, and what waits."""

    def __init__(self, crates, tasks, done, processors):
        self.crates, self.tasks, self.done, self.processors = crates, tasks, set(done), processors
        self.memory, self.group = SHARE_OF_MEMORY * free_memory(), Group()
        self.running, self.killed, self.speed = [], set(), USUAL_SPEED
        self.began, self.total = time.monotonic(), self.left()

    def ready(self):
        """Returns the tasks that may start, the longest remaining path first."""
        waiting = [it for it in self.tasks.values() if it.name not in self.done and it not in self.running]
        return sorted([it for it in waiting if self.done.issuperset(it.deps)], key=lambda it: -it.rest)

    def is_first(self, task):
        """Returns true if no task at work has a longer remaining path."""
        return all(task.rest >= it.rest for it in self.running)

    def is_long(self, task, jobs):
        """Returns true if the task's remaining path takes about as long, with so many jobs, as all that is left takes on all processors."""
        work = sum(it.seconds for it in self.tasks.values() if it.name not in self.done)
        return task.rest / speed_with(jobs) >= LONG_PATH * work / self.processors

    def jobs_for(self, task, others):
        """Returns the processors that a task gets now, or 0 if it has to wait. `others` is the number of tasks that wait behind it."""
        if len(self.running) >= self.processors or self.running and any(it.name in self.killed for it in [task, *self.running]):
            return 0
        room = self.memory - sum(it.memory_with(it.jobs) for it in self.running)
        idle = self.processors - sum(it.jobs for it in self.running)
        most = min(self.processors, MOST_JOBS)
        jobs = most if self.is_first(task) or self.is_long(task, most) else min(most, max(1, idle // (1 + others)))
        jobs = 1 if task.name in self.killed else jobs
        while jobs and task.memory_with(jobs) > room:
            jobs -= 1
        # A check that has the machine to itself is tried in any case.
        return jobs if jobs or self.running else 1

    def start(self):
        """Starts what may start now."""
        ready = self.ready()
        longest = max([it.rest for it in self.tasks.values() if it.name not in self.done], default=1)
        for at, task in enumerate(ready):
            jobs = self.jobs_for(task, len(ready) - at - 1)
            if not jobs:
                break
            priority = min(LOWEST_PRIORITY, int(PRIORITY_OF_PATH * (1 - task.rest / longest)))
            task.jobs, task.began, task.log = jobs, time.monotonic(), tempfile.TemporaryFile()
            forget(task.crate)
            task.stamp = stamp_of(self.crates, task.crate)
            how = {"cwd": task.crate.folder, "stdin": subprocess.DEVNULL, "stdout": task.log, "stderr": task.log}
            task.process = self.group.start(words_of(self.crates, task.crate, jobs), priority, **how)
            self.running.append(task)

    def wait(self):
        """Waits until a check ends, and returns its task and status."""
        while True:
            for task in self.running:
                status = task.process.poll()
                if status is not None:
                    self.running.remove(task)
                    return task, status
            time.sleep(0.1)

    def left(self):
        """Returns about how long the rest takes by the clock, in seconds of crates.txt: the same rules, played through without checks."""
        work = {it.name: it.seconds * (1 - self.share_done(it)) for it in self.tasks.values() if it.name not in self.done}
        done, clock = set(self.done), 0
        while work:
            ready = [it for it in self.tasks.values() if it.name in work and done.issuperset(it.deps)]
            speeds, free = {}, self.processors
            for task in sorted(ready, key=lambda it: -it.rest):
                jobs = min(free, MOST_JOBS if not speeds else 1)
                speeds[task.name] = speed_with(jobs)
                free -= jobs - 1 if jobs > 1 else jobs
            step = min(work[name] / speed for name, speed in speeds.items() if speed > 0)
            clock += step
            for name, speed in speeds.items():
                work[name] -= step * speed
                if work[name] <= 1e-6:
                    del work[name]
                    done.add(name)
        return clock

    def share_done(self, task):
        """Returns about how much of a task is done."""
        if task not in self.running:
            return 0
        return min(0.9, (time.monotonic() - task.began) * speed_with(task.jobs) / (self.speed * task.seconds))

    def how_far(self):
        """Says how much is done by the clock, how long that took, and about how long the rest takes at the speed seen so far."""
        spent = time.monotonic() - self.began
        # What is done of the crates at work depends on the speed, and the speed on that.
        for _ in range(20):
            left = self.left()
            if not 0 < left < self.total:
                return f"{0 if left else 100} of 100 done in {clock(spent)}"
            self.speed = (spent + USUAL_SPEED * USUAL_WEIGHT) / (self.total - left + USUAL_WEIGHT)
        return f"{int(100 * (1 - left / self.total))} of 100 done in {clock(spent)}, about {clock(left * self.speed)} left"


def clock(seconds):
    return f"{int(seconds) // 60}:{int(seconds) % 60:02d}"


def prove(build):
    """Runs all tasks, and returns 0, or 1 if one failed."""
    while len(build.done) < len(build.tasks):
        build.start()
        task, status = build.wait()
        if status == -signal.SIGKILL and task.name not in build.killed:
            build.killed.add(task.name)
            print(f"build: {task.name}: the check was killed, most likely for memory; once more, by itself", flush=True)
            continue
        if not status and task.name == PROGRAM:
            status = link(task.crate, task.log)
        if status:
            build.group.end()
            task.log.seek(0)
            sys.stderr.write(task.log.read().decode(errors="replace"))
            print(f"build: {task.name}: not proved", flush=True)
            return 1
        keep(build.crates, task.crate, task.stamp)
        build.done.add(task.name)
        build.start()
        names = ", ".join(it.name for it in build.running)
        print(f"build: {task.name} proved in {clock(time.monotonic() - task.began)}; {build.how_far()}{f' ({names})' if names else ''}", flush=True)
    build.group.end()
    return 0


def main(words):
    processors = len(os.sched_getaffinity(0))
    if words[:1] == ["--jobs"] and len(words) == 2 and words[1].isdigit() and int(words[1]):
        processors = min(processors, int(words[1]))
    elif words:
        print(__doc__, end="", file=sys.stderr)
        return 2
    # At a terminal an interrupt comes twice: from there, and from ./build.
    interrupts = (signal.SIGINT, signal.SIGTERM, signal.SIGHUP)
    for it in interrupts:
        signal.signal(it, lambda number, frame: os._exit(128 + number))
    crates = crates_of(TOP)
    for it in crates.values():
        it.libraries = KEPT
    tasks = tasks_of(crates)
    done = kept_of(crates, tasks)
    kept = f", {len(done)} of them proved before" if done else ""
    print(f"build: {len(tasks)} crates{kept}; {processors} processors; how long it takes is printed when the next one is proved", flush=True)
    build = Build(crates, tasks, done, processors)

    def stop(number, frame):
        for it in interrupts:
            signal.signal(it, signal.SIG_IGN)
        build.group.end()
        os._exit(128 + number)

    for it in interrupts:
        signal.signal(it, stop)
    return prove(build)


if __name__ == "__main__":
    sys.exit(main(sys.argv[1:]))
