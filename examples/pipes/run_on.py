#!/usr/bin/env python3
"""Runs a live board on and on, over pipes: 200,000 edits within 16 MB. usage: run_on.py [WORD..], the words that run the program, else ./board

The board makes checkpoints by itself, so its journal never fills and the memory of edits that left nothing is freed.
"""
import subprocess
import sys

EDITS, PENDING = 200_000, 50
words = [*(sys.argv[1:] or ["./board"]), "live", "--memory", "16M"]
board = subprocess.Popen(words, stdin=subprocess.PIPE, stdout=subprocess.PIPE, text=True)


def send(lines):
    """Sends lines with a reply of one line each, and returns the replies."""
    board.stdin.write("".join(f"{line}\n" for line in lines))
    board.stdin.flush()
    return [board.stdout.readline().rstrip("\n") for _ in lines]


refused = [it for it in send(["relation Flights 2"]) if it != "ok"]
for day in range(EDITS // 4):
    edits = [f"insert Flights({day}, Paris)", f"post q{day} {{}} R({day}, x) <- Flights({day}, x)"]
    if day >= PENDING:
        edits += [f"delete Flights({day - PENDING}, Paris)", f"withdraw q{day - PENDING}"]
    refused += [it for it in send([*edits, "publish"]) if it.startswith("refused")]
print("refused:", len(refused), *refused[:3])
print(send(["count"])[0])
board.stdin.close()
sys.exit(board.wait() or bool(refused))
