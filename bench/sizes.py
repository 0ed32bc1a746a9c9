#!/usr/bin/env python3
"""Runs `board` at its limits, and sees that what it writes is right, and what time, memory and stack it takes.

    python3 bench/sizes.py [DIVISOR [CASE..]]

Each case is a script that is made together with the replies which the rules of docs/formats.md ask for: line by line, and
by no other knowledge of the program. It is run at half its size and at its size, which are divided by DIVISOR, 1 where none
is told, first with 8 MiB of stack and then with less and less. The table tells the size, the bytes of input, the least seconds of
processor time, the peak of resident memory and its quotient to the bytes of input, and the least stack that was enough, in KiB; and of the two
sizes the quotients of time and of memory: 2 is in proportion to the size.

The program must be built already, by ./build; BOARD in the environment names another one. The status is 1 where a run
ended otherwise than it is to, or wrote something else.
"""

import filecmp
import glob
import os
import random
import re
import resource
import sys
import tempfile

TOP = os.path.dirname(os.path.dirname(os.path.realpath(__file__)))
MAX_LINE = 131_072
MAX_COUNT = 1_000_000
MAX_READS = 1_048_576
STACKS = [8192, 1024, 256, 128, 64]
SESSIONS = 16


def refused(kind, offset):
    """The reply to a fault of text."""
    return f"refused {kind} at {offset}"


def query_lines(name, state, text, providers=(), groundings=((),), variables=""):
    """A query's lines in a report; `providers` has, for each postcondition, the heads that supply it."""
    yield f"query {name} {state}"
    yield f"  text {text}"
    for place, heads in enumerate(providers):
        yield f"  post {place} providers {len(heads)}{' crowded' if len(heads) > 1 else ''}"
        for head in heads:
            yield f"    {head}"
    yield f"  groundings {len(groundings)} ({variables})"
    for values in groundings:
        yield f"    ({', '.join(values)})"


def shown(count, relations, queries):
    """The answer to a look; `queries` are the lines of each."""
    yield f"show {count}"
    yield from relations
    for lines in queries:
        yield from lines
    yield "end"


def waits(wanted, offered):
    """A query that waits for one number and offers another."""
    return f"{{R({wanted})}} R({offered}) <-"


# --- the cases: each yields the lines of a script, and with each line its reply: None, a line, or several lines.


def line(n):
    """A line of the greatest length, of each sort, and one that is a byte longer. (The size is that of a line.)"""
    over = refused("Limit", n)
    opening = "post a {"
    for text, reply in [
        ("#".ljust(n, "x"), None),
        (" \t\r".ljust(n, " "), None),
        ("publish".ljust(n + 1), over),
        ("relation T 1".ljust(n), "ok"),
        ("x" * n, refused("Shape", 0)),
        ("withdraw ".ljust(n, "a"), refused("Limit", 9)),
        ('withdraw "'.ljust(n, "a"), refused("Text", 9)),
        ("limits ".ljust(n, "9"), refused("Number", 7)),
        ("limits " + "9" * 18 + " ".ljust(n - 26) + "1", refused("Limit", 7)),
        ("relation U".ljust(n), refused("Shape", n)),
        (opening + ",".join(["R(1)"] * ((n - len(opening)) // 5)), refused("Limit", len(opening) + 8 * 5)),
        ("\0" * n, refused("Token", 0)),
        ("#".ljust(n + 1, "x"), over),
        (" " * (n + 1), over),
        ("#".ljust(n, "x") + "\r", over),
        ("relation U 1".ljust(n - 1) + "\r", "ok"),
        ("post a {}".ljust(n - 7) + "R(1) <-", "ok 1"),
        ("post b {}".ljust(n - 6) + "R(1) <-", over),
        ("relation V 1".ljust(n), "refused Late"),
        ("publish".ljust(n), "published 1"),
        ("show".ljust(n - 1) + "\r", shown(1, ["relation T 1 rows 0", "relation U 1 rows 0"], [query_lines("a", "matched", "{} R(1) <-")])),
        ("x" * (n + 1), over),
    ]:
        yield text, reply


def long_line(n):
    """A line of n bytes, and a good one after it."""
    yield "#" * n, refused("Limit", MAX_LINE) if n > MAX_LINE else None
    yield "publish", "published 0"


FAULTS = [
    ("frobnicate", "Shape", 0),
    ("frobnicate -0", "Shape", 0),
    ("publish -0", "Number", 8),
    ("withdraw", "Shape", 8),
    ('withdraw "a', "Text", 9),
    ("relation f 2", "Shape", 9),
    ("relation F 9", "Limit", 11),
    ("limits 0 5", "Limit", 7),
    ("limits 08 5", "Number", 7),
    ("insert T(x)", "Shape", 9),
    ("post a {R(", "Shape", 10),
    ("post a {} R() <-", "Shape", 12),
    ('post a {} R("x', "Text", 12),
    ("post a {} R(1) < -", "Token", 15),
    ("post a {R(1)} R(1)", "Shape", 18),
    ("post a {} R(1,2,3,4,5,6,7,8,9) <-", "Limit", 28),
    ("post b {} R(x) <-", "Unbound", 12),
    ("post m {} R(9223372036854775808) <-", "Number", 12),
    ("withdraw " + "a" * 33, "Limit", 9),
    ("_", "Token", 0),
]


def faults(n):
    """Lines of faults, after more or fewer blanks."""
    for place in range(n):
        text, kind, offset = FAULTS[place % len(FAULTS)]
        blanks = place % 7
        yield " " * blanks + text, refused(kind, blanks + offset)


def pool(n):
    """A pool at its limit, while the journal has room for two more entries."""

    def name(place):
        return f"q{place:031}"

    yield f"limits {n - 2} {n}", "ok"
    for place in range(n - 2):
        yield f"post {name(place)} {{}} R({place}) <-", f"ok {place + 1}"
    yield f"post {name(n)} {{}} R(0) <-", "refused PoolFull"
    yield f"post {name(0)} {{}} R(0) <-", "refused PoolFull"
    yield f"withdraw {name(0)}", f"ok {n - 1}"
    yield f"withdraw {name(0)}", "refused NoSuchName"
    yield f"post {name(n)} {{}} R({n}) <-", f"ok {n}"
    yield f"post {name(n)} {{}} R(0) <-", "refused JournalFull"
    yield f"withdraw {name(1)}", "refused JournalFull"
    yield "publish", f"published {n}"
    there = [*range(1, n - 2), n]
    yield "show", shown(n, [], (query_lines(name(it), "matched", f"{{}} R({it}) <-") for it in there))


def journal(n):
    """A journal at its limit, over a board of one query and one row that come and go."""
    yield "relation T 1", "ok"
    yield f"limits 1 {n}", "ok"
    turns = ["post a {S(x)} R(x) <- T(x)", "insert T(1)", "withdraw a", "delete T(1)"]
    for place in range(n):
        yield turns[place % 4], f"ok {place + 1}"
    for text in [*turns, "withdraw b", "insert U(1)"]:
        yield text, "refused JournalFull"
    yield "publish", f"published {n}"
    has_query, has_row = n % 4 in (1, 2), n % 4 in (2, 3)
    found = [("1",)] if has_row else []
    query = query_lines("a", "waiting", "{S(x)} R(x) <- T(x)", [[]], found, "x")
    yield "show", shown(n, [f"relation T 1 rows {len(found)}"], [query] if has_query else [])


def relations(n):
    """As many relations as there may be (the size, not divided), and more."""
    for place in range(n):
        yield f"relation T{place} 2", "ok"
    yield f"relation T{n} 2", "refused CatalogFull"
    yield "relation T0 3", "refused Declared"
    yield f"relation T{n - 1} 2", "refused Declared"
    yield f"insert T{n - 1}(1, 2)", "ok 1"
    yield f"insert T{n}(1, 2)", "refused UnknownRelation 0"
    yield f"relation T{n} 2", "refused Late"
    yield "publish", "published 1"
    yield "show", shown(1, [f"relation T{place} 2 rows {int(place == n - 1)}" for place in range(n)], [])


def in_order(n, numbers):
    """Rows that come in this order of their numbers, the upper half as texts, and a query that reads them."""

    def value(number):
        return str(number) if number < n // 2 else f'"{number:07}"'

    yield "relation T 1", "ok"
    yield f"limits 1 {n + 12}", "ok"
    yield "post a {} R(x) <- T(x)", "ok 1"
    for place, number in enumerate(numbers):
        yield f"insert T({value(number)})", f"ok {place + 2}"
    yield f"insert T({value(n // 2)})", "refused RowPresent"
    for number in range(10):
        yield f"delete T({value(number)})", f"ok {n + 2 + number}"
    yield "publish", f"published {n + 11}"
    found = [(value(number),) for number in range(10, n)]
    yield "show", shown(n + 11, [f"relation T 1 rows {n - 10}"], [query_lines("a", "matched", "{} R(x) <- T(x)", [], found, "x")])


def rows(n):
    """Rows in random order."""
    numbers = list(range(n))
    random.Random(1).shuffle(numbers)
    return in_order(n, numbers)


def rows_rising(n):
    """Rows each of which comes after all that are there."""
    return in_order(n, range(n))


def rows_falling(n):
    """Rows each of which comes before all that are there."""
    return in_order(n, range(n - 1, -1, -1))


def rows_gone(n):
    """Rows that come, and all go again, under a query that reads them."""
    query = "{} R(x) <- T(x)"
    yield "relation T 1", "ok"
    yield f"limits 1 {2 * n + 1}", "ok"
    yield f"post a {query}", "ok 1"
    for place in range(2 * n):
        yield f"{'insert' if place < n else 'delete'} T({place % n})", f"ok {place + 2}"
    yield "publish", f"published {2 * n + 1}"
    yield "show", shown(2 * n + 1, ["relation T 1 rows 0"], [query_lines("a", "waiting", query, [], [], "x")])


def unmet(n):
    """A body whose last atom meets no row, after three that meet all n."""
    query = "{} R(x) <- T(x), T(y), T(z), U(w)"
    yield "relation T 1", "ok"
    yield "relation U 1", "ok"
    for place in range(n):
        yield f"insert T({place})", f"ok {place + 1}"
    yield f"post a {query}", f"ok {n + 1}"
    yield "publish", f"published {n + 1}"
    yield "show", shown(n + 1, [f"relation T 1 rows {n}", "relation U 1 rows 0"], [query_lines("a", "waiting", query, [], [], "x, y, z, w")])


def quotes(number):
    """A text of 255 bytes, as it is written and printed: a number of eight digits, and then signs that are escaped."""
    return f'"{number:08}' + '\\"' * 120 + "\\\\" * 127 + '"'


def wide_atom(letter, number):
    """An atom of eight such texts, over a relation of 32 bytes, in the printed form."""
    terms = [quotes(number)] + ['"' + "\\\\" * 255 + '"'] * 7
    return f"{letter * 32}({', '.join(terms)})"


def wide(n):
    """Postings of as many and as long atoms as there may be, in lines of the greatest length, and looks at all."""
    yield f"relation {'T' * 32} 8", "ok"
    for place in range(n):
        yield f"insert {wide_atom('T', place)}", f"ok {place + 1}"
    texts = []
    for place in range(n):
        atoms = [", ".join([wide_atom(letter, number)] * 8) for letter, number in [("R", (place + 1) % n), ("R", place), ("T", place)]]
        texts.append(f"{{{atoms[0]}}} {atoms[1]} <- {atoms[2]}")
        yield f"post {'q' * 24}{place:08} {texts[-1]}".ljust(MAX_LINE), f"ok {n + place + 1}"
    yield "publish", f"published {2 * n}"
    queries = (
        query_lines("q" * 24 + f"{place:08}", "matched", text, [[f"{'q' * 24}{(place + 1) % n:08} head {head}" for head in range(8)]] * 8)
        for place, text in enumerate(texts)
    )
    yield "show", shown(2 * n, [f"relation {'T' * 32} 8 rows {n}"], queries)


def variables(n):
    """A query of 64 variables over rows of eight texts of 255 bytes: it has n groundings."""
    names = [f"x{'y' * 29}{place:02}" for place in range(64)]
    body = [f"T{atom}({', '.join(names[8 * atom : 8 * atom + 8])})" for atom in range(8)]
    text = f"{{}} R({names[0]}) <- {', '.join(body)}"
    for atom in range(8):
        yield f"relation T{atom} 8", "ok"
    entry = 0
    for atom in range(8):
        for number in range(n if atom == 7 else 1):
            entry += 1
            yield f"insert T{atom}({', '.join([quotes(number)] * 8)})", f"ok {entry}"
    yield f"post a {text}", f"ok {entry + 1}"
    yield "publish", f"published {entry + 1}"
    found = [[quotes(0)] * 56 + [quotes(number)] * 8 for number in range(n)]
    counts = [f"relation T{atom} 8 rows {n if atom == 7 else 1}" for atom in range(8)]
    yield "show", shown(entry + 1, counts, [query_lines("a", "matched", text, [], found, ", ".join(names))])


def looked_at(count, there, state, supplier_of):
    """A look at queries that wait for one number each, of which these are there."""

    def lines_of(place):
        wanted = supplier_of(place)
        heads = [f"q{wanted} head 0"] if wanted in there else []
        return query_lines(f"q{place}", state, waits(wanted, place), [heads])

    return shown(count, [], (lines_of(place) for place in there))


def ring(n):
    """Each waits for the next and the last for the first; broken by one withdrawal, and closed again."""
    last = n - 1
    yield f"limits {n} {n + 2}", "ok"
    for place in range(n):
        yield f"post q{place} {waits((place + 1) % n, place)}", f"ok {place + 1}"
    for count, there, state, text in [
        (n, range(n), "matched", f"withdraw q{last}"),
        (n + 1, range(last), "waiting", f"post q{last} {waits(0, last)}"),
        (n + 2, range(n), "matched", None),
    ]:
        yield "publish", f"published {count}"
        yield "show", looked_at(count, there, state, lambda place: (place + 1) % n)
        if text:
            yield text, f"ok {count + 1}"


def chain_of(n, order):
    """Each waits for the next, the last for nobody; posted in this order, and withdrawn at the last, which all wait for."""
    last = n - 1

    def text_of(place):
        return waits(place + 1, place) if place < last else f"{{}} R({last}) <-"

    def lines_of(place, state):
        heads = [[f"q{place + 1} head 0"] if state == "matched" or place + 1 < last else []]
        return query_lines(f"q{place}", state, text_of(place), heads if place < last else [])

    yield f"limits {n} {n + 1}", "ok"
    for entry, place in enumerate(order):
        yield f"post q{place} {text_of(place)}", f"ok {entry + 1}"
    yield "publish", f"published {n}"
    yield "show", shown(n, [], (lines_of(place, "matched") for place in order))
    yield f"withdraw q{last}", f"ok {n + 1}"
    yield "publish", f"published {n + 1}"
    yield "show", shown(n + 1, [], (lines_of(place, "waiting") for place in order if place != last))


def chain(n):
    """A chain that is posted from its waiting end."""
    return chain_of(n, range(n))


def chain_back(n):
    """A chain that is posted from its supplied end."""
    return chain_of(n, range(n - 1, -1, -1))


def crowd(n):
    """One query with that many providers, which then go one after another."""
    text = "{S(x)} R(x) <- T(x)"
    yield "relation T 1", "ok"
    yield f"limits {n + 1} {2 * n + 2}", "ok"
    yield "insert T(1)", "ok 1"
    yield f"post w {text}", "ok 2"
    for place in range(n):
        yield f"post q{place} {{}} S({place}) <-", f"ok {place + 3}"
    yield "publish", f"published {n + 2}"
    heads = [f"q{place} head 0" for place in range(n)]
    waiter = query_lines("w", "matched", text, [heads], [("1",)], "x")
    others = (query_lines(f"q{place}", "matched", f"{{}} S({place}) <-") for place in range(n))
    yield "show", shown(n + 2, ["relation T 1 rows 1"], [waiter, *others])
    for place in range(n):
        yield f"withdraw q{place}", f"ok {n + place + 3}"
    yield "publish", f"published {2 * n + 2}"
    yield "show", shown(2 * n + 2, ["relation T 1 rows 1"], [query_lines("w", "waiting", text, [[]], [("1",)], "x")])


# Case, size, and whether the size is divided and halved: what is a number of the language's own is not.
CASES = [
    (line, MAX_LINE, False),
    (long_line, 100_000_000, True),
    (faults, 1_000_000, True),
    (pool, MAX_COUNT, True),
    (journal, MAX_COUNT, True),
    (relations, 64, False),
    (rows_rising, 100_000, True),
    (rows, 100_000, True),
    (rows_falling, 100_000, True),
    (rows_gone, 20_000, True),
    (unmet, 200, True),
    (wide, 200, True),
    (variables, 1_000, True),
    (ring, 100_000, True),
    (chain, 100_000, True),
    (chain_back, 100_000, True),
    (crowd, 100_000, True),
]


# --- sessions: the order of the files is the program's to choose; all else follows from it.


def session_files(folder, n):
    """Writes SETUP and sixteen files of n postings each, in pairs; the last line of each wants a name that all want."""
    paths = [os.path.join(folder, name) for name in ["setup", *(f"file{number}" for number in range(SESSIONS))]]
    with open(paths[0], "w") as setup:
        setup.write(f"limits {MAX_COUNT} {MAX_COUNT}\n")
    for number, path in enumerate(paths[1:]):
        with open(path, "w") as file:
            file.writelines(f"{text}\n" for text in session_lines(number, n))
    return paths


def session_lines(number, n):
    """The lines of a file."""
    base = number * n
    for place in range(n):
        yield f"post f{number}q{place} {waits(base + (place ^ 1), base + place)}"
    yield f"post all {{}} S({number}) <-"


def session_output(order, n):
    """What is written where the files' submits came in this order."""
    yield f"limits {MAX_COUNT} {MAX_COUNT}"
    entry, begins = 0, {}
    for turn, number in enumerate(order):
        begins[number] = entry
        for text in list(session_lines(number, n))[: n + (turn == 0)]:
            entry += 1
            yield f"# entry {entry} session {number}"
            yield text
    yield from ["publish", "show", "# setup line 1 ok"]
    for number in range(SESSIONS):
        for place in range(n):
            yield f"# session {number} line {place + 1} ok {begins[number] + place + 1}"
        reply = f"ok {n + 1}" if number == order[0] else "refused NameTaken"
        yield f"# session {number} line {n + 1} {reply}"


def order_in(path):
    """The order in which the sessions' entries begin in an output."""
    order = []
    with open(path) as output:
        for text in output:
            entry = re.fullmatch(r"# entry \d+ session (\d+)\n", text)
            if entry and int(entry[1]) not in order:
                order.append(int(entry[1]))
    return order


# --- running


def put(path, texts):
    """Writes these lines to the path."""
    with open(path, "w") as file:
        file.writelines(f"{text}\n" for text in texts)


def apart(work, *words):
    """Does the work in a process of its own, so that this one stays small: a run's peak begins with that of this process."""
    child = os.fork()
    if child == 0:
        try:
            work(*words)
            os._exit(0)
        finally:
            os._exit(1)
    if os.waitpid(child, 0)[1] != 0:
        sys.exit("bench/sizes.py: a script cannot be written")


def put_case(case, size, script, wanted):
    """Writes the script of a case, and what is to come of it."""
    with open(script, "w") as lines, open(wanted, "w") as replies:
        for text, reply in case(size):
            lines.write(f"{text}\n")
            told = [] if reply is None else [reply] if isinstance(reply, str) else reply
            replies.writelines(f"{it}\n" for it in told)


def run(words, source, sink, errors, stack):
    """Runs the program with so many KiB of stack: its status, processor time in seconds, and peak memory in bytes."""
    child = os.fork()
    if child == 0:
        try:
            resource.setrlimit(resource.RLIMIT_STACK, (stack * 1024, resource.RLIM_INFINITY))
            resource.setrlimit(resource.RLIMIT_CORE, (0, 0))
            os.dup2(os.open(source, os.O_RDONLY), 0)
            os.dup2(os.open(sink, os.O_WRONLY | os.O_CREAT | os.O_TRUNC, 0o600), 1)
            os.dup2(os.open(errors, os.O_WRONLY | os.O_CREAT | os.O_TRUNC, 0o600), 2)
            os.execv(words[0], words)
        finally:
            os._exit(127)
    _, status, usage = os.wait4(child, 0)
    return os.waitstatus_to_exitcode(status), usage.ru_utime + usage.ru_stime, usage.ru_maxrss * 1024


def print_row(name, size, length, seconds, memory, stack, said):
    """A row of the table."""
    print(f"{name:13} {size:>11,} {length:>13,} {seconds:8.2f} {memory / 1e6:9.1f} {memory / length:8.1f} {stack or '-':>6} {said}", flush=True)


class Sized:
    """A case at a size: its files, and its runs."""

    def __init__(self, folder, program, name, size, case=None):
        self.name, self.size = name, size
        names = ("script", "output", "errors", "wanted")
        self.source, self.sink, self.errors, self.wanted = (os.path.join(folder, it) for it in names)
        if case:
            apart(put_case, case, size, self.source, self.wanted)
            self.words, inputs = [program, "replay"], [self.source]
        else:
            inputs = session_files(folder, size)
            self.words, self.source = [program, "sessions", *inputs], os.devnull
        self.bytes = sum(os.path.getsize(it) for it in inputs)
        self.is_replay = case is not None

    def fault(self, status):
        """What is wrong with a run that ended with this status, if anything."""
        if status != 0 or os.path.getsize(self.errors):
            return f"status {status}"
        if not self.is_replay:
            order = order_in(self.sink)
            if sorted(order) != list(range(SESSIONS)):
                return "not each session has entries"
            apart(put, self.wanted, session_output(order, self.size))
        filecmp.clear_cache()
        return None if filecmp.cmp(self.sink, self.wanted, shallow=False) else "another output"

    def measures(self):
        """The least time and the most memory of runs with less and less stack, until one is too little; and whether all were
        right, and the second stack enough."""
        least, most, enough = float("inf"), 0, None
        for stack in STACKS:
            status, seconds, memory = run(self.words, self.source, self.sink, self.errors, stack)
            fault = self.fault(status)
            if fault:
                break
            least, most, enough = min(least, seconds), max(most, memory), stack
        is_right = enough is not None and enough <= STACKS[1] and (not fault or status < 0)
        print_row(self.name, self.size, self.bytes, least, most, enough, "right" if is_right else fault)
        return least, most, is_right


def try_no_end(program):
    """A script without an end: the reads that a run may make are made, and then it is told that no end came."""
    with tempfile.TemporaryDirectory() as folder:
        sink, errors = (os.path.join(folder, it) for it in ("output", "errors"))
        status, seconds, memory = run([program, "replay"], "/dev/zero", sink, errors, STACKS[1])
        with open(errors) as said:
            is_right = (status, os.path.getsize(sink), said.read()) == (1, 0, f"board: read failed at turn {MAX_READS + 1}\n")
    print_row("no_end", MAX_READS, MAX_READS * 4096, seconds, memory, STACKS[1], "right" if is_right else f"status {status}")
    return is_right


def free_memory():
    """The bytes of memory that the machine can still give."""
    with open("/proc/meminfo") as file:
        return next(int(text.split()[1]) * 1024 for text in file if text.startswith("MemAvailable"))


def try_case(program, name, size, is_growing, case):
    """Runs a case at half its size and at its size, and answers whether all was right."""
    measures = []
    for share in (size // 2, size) if is_growing else (size,):
        if measures and 2.2 * measures[0][1] > free_memory():
            print(f"{name:13} {share:>11,} is left out: there is too little memory")
            return False
        with tempfile.TemporaryDirectory() as folder:
            measures.append(Sized(folder, program, name, share, case).measures())
    if is_growing and all(most for _, most, _ in measures):
        (early, small, _), (late, great, _) = measures
        print(f"{'':13} time {late / max(early, 0.01):.2f} times, memory {great / small:.2f} times", flush=True)
    return all(is_right for _, _, is_right in measures)


def built_program():
    """The program that ./build made, or that BOARD names."""
    named = os.environ.get("BOARD")
    found = [named] if named else glob.glob(os.path.join(TOP, "out", "board.*"))
    if len(found) != 1:
        sys.exit("bench/sizes.py: no program, or more than one; ./build makes it")
    return os.path.abspath(found[0])


def main():
    divisor = int(sys.argv[1]) if len(sys.argv) > 1 else 1
    program = built_program()
    cases = [(case.__name__, size // divisor if grows else size, grows, case) for case, size, grows in CASES]
    cases.append(("sessions", 20_000 // divisor, True, None))
    chosen = [it for it in cases if len(sys.argv) < 3 or it[0] in sys.argv[2:]]
    print(f"{'case':13} {'size':>11} {'input bytes':>13} {'seconds':>8} {'peak MB':>9} {'per byte':>8} {'KiB':>6}")
    right = [try_case(program, *it) for it in chosen]
    if len(sys.argv) < 3 or "no_end" in sys.argv[2:]:
        right.append(try_no_end(program))
    sys.exit(0 if all(right) else 1)


if __name__ == "__main__":
    main()
