# What ./check and ./prove share. It is read by them and not run: `self` is the name of the one that reads it, and `top` the
# folder of the checkout, in which it runs.

# The work cannot be done: one line says why, nothing passed, and the status is 70.
cannot() {
    printf '%s: %s\n0 passed, 1 failed\n' "$self" "$1"
    exit 70
}

passed=0
failed=0
fail() {
    printf '%s: %s\n' "$self" "$1"
    failed=$((failed + 1))
}

# Adds what a command counted, by the last line `N passed, M failed` of a file. Where it counted nothing, or counted no
# failure and ended with another status than 0, that is a failure.
add_counts() {
    local counts before=$failed
    counts=$(grep -E '^[0-9]+ passed, [0-9]+ failed$' "$1" | tail -n 1)
    if [ -z "$counts" ]; then
        fail "$3 ended with status $2, and counted nothing"
        return
    fi
    counts=${counts% failed}
    passed=$((passed + ${counts%% *}))
    failed=$((failed + ${counts##* }))
    [ "$2" -eq 0 ] || [ "$failed" -gt "$before" ] || fail "$3 ended with status $2"
}

# What the script says of itself at its head.
help() {
    sed -n '2,/^[^#]/s/^#\( \|$\)//p' "$self"
}

# Sees that the commands are there, and makes the folder `room`, which goes at the end.
begin() {
    local command
    for command in rt python3 awk timeout; do
        type -P "$command" >/dev/null || cannot "there is no command $command on the PATH"
    done
    room=$(mktemp -d 2>/dev/null) || cannot "there is no temporary folder"
    readonly room
    trap 'rm -rf -- "$room"' EXIT
    trap 'trap "" INT TERM HUP; kill 0; exit 130' INT TERM HUP
}
