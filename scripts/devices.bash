# Runs of the program where a device or a file fails. It is read by ./check and ./prove and not run, which give `room`, `programs`,
# `passed` and `fail`.

# Cases, by what they do where nothing fails.
readers="examples/travel.board examples/flights.csv cases/live_lines"
writers="$readers cases/one_file_session cases/help_long cases/version_long"
unreading="cases/one_file_session cases/help_long cases/version_long cases/no_words"
silent="cases/nothing cases/no_words cases/rows_first_record_at_fault"

# Rows of: groups of cases; what is redirected; the status; what standard error says. `own` is what the case has, and
# nothing after the status is nothing. `gone` is a pipe that no reader has open any more.
devices() {
    cat <<'ROWS'
writers; >&-; 1; board: write failed
writers; >/dev/full; 1; board: write failed
writers; >&"$gone"; 1; board: write failed
writers; >&- 2>&-; 1
writers; >/dev/full 2>/dev/full; 1
writers; >&"$gone" 2>&"$gone"; 1
writers; <&- >&- 2>&-; 1
writers silent; 2>&-; own
writers silent; 2>/dev/full; own
silent; >&-; own; own
silent; >/dev/full; own; own
silent; >&"$gone"; own; own
silent; >&- 2>&-; own
silent; >/dev/full 2>/dev/full; own
readers; <&-; 1; board: read failed at turn 1
readers; <.; 1; board: read failed at turn 1
readers; <&- 2>&-; 1
readers; <. 2>/dev/full; 1
unreading; <&-; own; own
unreading; <.; own; own
ROWS
}

# Compares how a run ended, and what it wrote, with what was wanted, which stands in `wanted.out` and `wanted.err`.
compare_run() {
    local status=$1 wanted=$2 label="$3 (${4##*/})"
    if [ "$status" -ne "$wanted" ]; then
        fail "$label: status $status and not $wanted"
    elif ! cmp -s "$room/out" "$room/wanted.out"; then
        fail "$label: what it wrote is not what it is to write"
    elif ! cmp -s "$room/err" "$room/wanted.err"; then
        fail "$label: standard error says: $(head -n 1 "$room/err")"
    else
        passed=$((passed + 1))
    fi
}

# Runs a case with what is redirected. Standard output is what the case has where the case's own status is wanted and
# it goes where it is seen, else nothing.
run_redirected() {
    local program=$1 script=$2 redirected=$3 wanted=$4 told=$5 words=(replay) own=0
    [ -f "$script.args" ] && mapfile -t words <"$script.args"
    [ -f "$script.status" ] && own=$(<"$script.status")
    [ "$wanted" = own ] && wanted=$own
    : >"$room/wanted.out"
    [ "$wanted" -eq "$own" ] && [[ " $redirected" != *" >"* ]] && cp -- "$(output_of "$script" "$program")" "$room/wanted.out"
    case $told in
    own) cat -- "$script.stderr" ;;
    ?*) printf '%s\n' "$told" ;;
    esac >"$room/wanted.err" 2>/dev/null
    eval "timeout 20 \"\$program\" \${words[@]+\"\${words[@]}\"} <\"\$script\" >\"\$room/out\" 2>\"\$room/err\" $redirected"
    compare_run $? "$wanted" "$script $redirected" "$program"
}

# A row of the table, by one program. `gone` is opened for writing while a reader has the pipe open, which then goes.
run_row() {
    local program=$1 groups=$2 redirected=$3 wanted=$4 told=$5 group scripts="" script gone reader
    for group in $groups; do scripts+="${!group} "; done
    mkfifo "$room/pipe" && exec {reader}<>"$room/pipe" {gone}>"$room/pipe" {reader}<&- && rm -- "$room/pipe"
    for script in $scripts; do
        run_redirected "$program" "$script" "$redirected" "$wanted" "$told"
    done
    exec {gone}>&-
}

# The whole table, by one program.
run_rows() {
    local program=$1 groups redirected wanted told
    while IFS=';' read -r groups redirected wanted told; do
        run_row "$program" "$groups" "${redirected# }" "${wanted# }" "${told# }" </dev/null
    done < <(devices)
}

# Runs `sessions` with a path that does not give a file's bytes, as SETUP and as a file.
run_path() {
    local program=$1 path=$2 told=$3 words
    printf 'board: %s\n' "$told" >"$room/wanted.err"
    : >"$room/wanted.out"
    for words in "$path
cases/sessions/one.board" "cases/sessions/setup.board
$path"; do
        mapfile -t words <<<"$words"
        timeout 20 "$program" sessions "${words[@]}" </dev/null >"$room/out" 2>"$room/err"
        compare_run $? 1 "sessions ${words[*]}" "$program"
    done
}

# Paths that give no bytes: each is reported, and nothing is served.
run_paths() {
    local program=$1 path long
    long=$(printf '%0300d' 0)
    ln -sfn nowhere "$room/dangling"
    ln -sfn loop "$room/loop"
    for path in "" "$long" "$room/dangling" "$room/loop" cases/nothing/below; do
        run_path "$program" "$path" "cannot open $path"
    done
    run_path "$program" . "read failed at turn 1"
}

# A reader that stops in the midst of what is written: more than a pipe holds.
run_stopped() {
    local program=$1
    yes frobnicate | head -n 10000 >"$room/faults"
    echo "refused Shape at 0" >"$room/wanted.out"
    echo "board: write failed" >"$room/wanted.err"
    timeout 20 "$program" replay <"$room/faults" 2>"$room/err" | head -n 1 >"$room/out"
    compare_run "${PIPESTATUS[0]}" 1 "a reader that stops" "$program"
}

# All of these runs, by each program that was built.
run_on_devices() {
    local program
    for program in "${programs[@]}"; do
        run_rows "$program"
        run_paths "$program"
        run_stopped "$program"
    done
}
