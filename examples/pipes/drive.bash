#!/usr/bin/env bash
# Drives a live board over pipes. usage: drive.bash [WORD..], the words that run the program, else ./board
set -euo pipefail
[ $# -gt 0 ] || set -- ./board
coproc board { exec "$@" live; }
exec {to}>&"${board[1]}" {from}<&"${board[0]}" {board[1]}>&-
running=$board_PID

send() {
    printf '%s\n' "$1" >&"$to"
    read -r told <&"$from"
    printf '%s: %s\n' "$1" "$told"
}

ask() {
    printf '%s\n' "$1" >&"$to"
    while IFS= read -r told <&"$from" && [ "$told" != end ]; do printf '%s\n' "$told"; done
}

while read -r line; do send "$line"; done <examples/pipes/lines
states=$(ask "status kramer jerry")
if grep -qx "kramer waiting" <<<"$states"; then
    ask "explain kramer"
    send "insert Flights(122, Paris)"
    send "publish"
fi
ask "changes"
exec {to}>&-
wait "$running"
