"""Times `board sessions` on one file with all postings and on sixteen files with a sixteenth of them each.

    python3 bench/sessions.py [POSTINGS [BATCH]]

Each of the sixteen files has POSTINGS postings, 2000 where none are told, of names and numbers of its own: pairs that
wait for each other. The one file has all of them, one file's behind another's. Without BATCH each file is one submit, at
its end; with it there is a publish behind each BATCH postings. The program must be built already, by ./build. Of either
kind the least time of five runs is told, from start to end, with a file for output, and the quotient of the two.

It also sees that each output has an entry for each posting, and that its session is that of the file.
"""

import os
import re
import subprocess
import sys
import tempfile
import time

TOP = os.path.dirname(os.path.dirname(os.path.realpath(__file__)))
FILES = 16
TURNS = 5
ENTRY = re.compile(r"# entry \d+ session (\d+)\npost f(\d+)q(\d+) ")


def postings(number, count, batch):
    """The lines of a file of that number: pairs that wait for each other, with a publish after each batch."""
    lines = []
    base = 2 * number * count
    for place in range(count):
        lines.append(f"post f{number}q{place} {{R({base + (place ^ 1)})}} R({base + place}) <-")
        if batch and (place + 1) % batch == 0:
            lines.append("publish")
    return lines


def put(folder, name, lines):
    """Writes a file of these lines, and answers its path."""
    path = os.path.join(folder, name)
    with open(path, "w") as file:
        file.write("".join(line + "\n" for line in lines))
    return path


def least(words, sink):
    """The least time of five runs of the command, in seconds."""
    times = []
    for _ in range(TURNS):
        with open(sink, "wb") as writes:
            start = time.monotonic()
            status = subprocess.run(words, stdout=writes).returncode
            times.append(time.monotonic() - start)
        if status != 0:
            sys.exit(f"bench/sessions.py: the program ended with status {status}")
    return min(times)


def measure(setup, paths, files, count, folder):
    """The least time of the runs over these files, whose output is looked at."""
    sink = os.path.join(folder, "output")
    seconds = least([os.path.join(TOP, "board"), "sessions", setup] + paths, sink)
    with open(sink) as output:
        entries = ENTRY.findall(output.read())
    alone = len(paths) == 1
    if any(session != ("0" if alone else file) for session, file, _ in entries):
        sys.exit("bench/sessions.py: an entry is of another session")
    wanted = {(str(file), str(place)) for file in range(files) for place in range(count)}
    if len(entries) != files * count or {(file, place) for _, file, place in entries} != wanted:
        sys.exit("bench/sessions.py: the entries are other than the postings")
    return seconds


def main():
    count = int(sys.argv[1]) if len(sys.argv) > 1 else 2000
    batch = int(sys.argv[2]) if len(sys.argv) > 2 else 0
    with tempfile.TemporaryDirectory() as folder:
        setup = put(folder, "setup", ["limits 1000000 1000000"])
        parts = [postings(number, count, batch) for number in range(FILES)]
        whole = [put(folder, "all", [line for part in parts for line in part])]
        paths = [put(folder, f"file{number}", part) for number, part in enumerate(parts)]
        alone = measure(setup, whole, FILES, count, folder)
        together = measure(setup, paths, FILES, count, folder)
    print(f"one file {alone:.2f} s, sixteen files {together:.2f} s, quotient {together / max(alone, 0.001):.2f}")


if __name__ == "__main__":
    main()
