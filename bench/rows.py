"""Times `board rows` on 100,000 records of two fields, beside `cat` and a plain loop over Python's `csv`.

    python3 bench/rows.py

The program must be built already, by ./build. The time of a command is the least of ten runs, from its start to
its end, with a file for input and one for output.
"""

import os
import subprocess
import sys
import tempfile
import time

TOP = os.path.dirname(os.path.dirname(os.path.realpath(__file__)))
RECORDS = 100_000
TURNS = 10

READ = "import csv, sys\nfor record in csv.reader(sys.stdin): pass\n"
WRITE = """import csv, sys
for number, city in csv.reader(sys.stdin):
    sys.stdout.write(f'insert Flights({int(number)}, "{city}")\\n')
"""


def least(words, source, sink):
    """The least time of ten runs of the command, in seconds."""
    times = []
    for _ in range(TURNS):
        with open(source, "rb") as reads, open(sink, "wb") as writes:
            begun = time.perf_counter()
            subprocess.run(words, stdin=reads, stdout=writes, check=True)
            times.append(time.perf_counter() - begun)
    return min(times)


def main():
    with tempfile.TemporaryDirectory() as room:
        source, sink, wanted = (os.path.join(room, name) for name in ("rows.csv", "out", "wanted"))
        with open(source, "w") as it:
            it.writelines(f"{number},city{number % 1000}\n" for number in range(RECORDS))
        board = sys.argv[1:] or [os.path.join(TOP, "board")]
        times = {
            "cat": least(["cat"], source, sink),
            "a loop over Python's csv that drops its records": least([sys.executable, "-c", READ], source, sink),
            "such a loop that writes the insert lines": least([sys.executable, "-c", WRITE], source, wanted),
            "board rows Flights 2": least(board + ["rows", "Flights", "2"], source, sink),
        }
        with open(sink, "rb") as one, open(wanted, "rb") as other:
            same = one.read() == other.read()
    for name, seconds in times.items():
        print(f"{seconds * 1000:8.1f} ms  {name}")
    print("the lines are the same" if same else "THE LINES DIFFER")
    return 0 if same else 1


if __name__ == "__main__":
    sys.exit(main())
