#!/usr/bin/env python3
"""Drives a live board over pipes. usage: drive.py [WORD..], the words that run the program, else ./board"""
import subprocess
import sys

words = [*(sys.argv[1:] or ["./board"]), "live"]
board = subprocess.Popen(words, stdin=subprocess.PIPE, stdout=subprocess.PIPE, text=True)


def reply():
    return board.stdout.readline().rstrip("\n") or sys.exit("drive.py: the board is gone")


def send(line):
    print(line, file=board.stdin, flush=True)
    print(f"{line}: {reply()}")


def ask(line):
    print(line, file=board.stdin, flush=True)
    return list(iter(reply, "end"))


for line in open("examples/pipes/lines").read().splitlines():
    send(line)
if "kramer waiting" in ask("status kramer jerry"):
    print("\n".join(ask("explain kramer")))
    send("insert Flights(122, Paris)")
    send("publish")
print("\n".join(ask("changes")))
board.stdin.close()
sys.exit(board.wait())
