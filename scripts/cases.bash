# The cases of examples/ and cases/. It is read by ./check and ./prove and not run, which give `room`, `passed` and `fail`.
#
# A case is a file NAME for standard input, with what a run of it must write and how it must end: NAME.stdout (always
# there), NAME.stderr (nothing, where there is no such file), NAME.status (0) and NAME.args, one word a line (the
# one word `replay`; an empty file is no word). NAME.unproved stands in place of NAME.stdout for an unproved program. A folder in examples/ is
# no case: it tells of a program over the crates.

# All scripts of the cases, a line each.
cases() {
    local file
    for file in examples/* cases/*; do
        case $file in *.stdout | *.unproved | *.stderr | *.status | *.args) ;; *) [ -d "$file" ] || printf '%s\n' "$file" ;; esac
    done
}

# Each script has its output, and each other file its script.
look_at_cases() {
    local file before=$failed
    for file in examples/* cases/*; do
        [ -d "$file" ] && continue
        case $file in
        *.stdout | *.unproved | *.stderr | *.status | *.args) [ -f "${file%.*}" ] || fail "$file belongs to no script" ;;
        *) [ -f "$file.stdout" ] || fail "$file has no expected output" ;;
        esac
    done
    [ "$failed" -gt "$before" ] || passed=$((passed + 1))
}

# What a case wants: its words into `words`, its status into `wanted`, its standard error into the file wanted.err.
read_case() {
    local script=$1
    words=(replay) wanted=0
    [ -f "$script.args" ] && mapfile -t words <"$script.args"
    [ -f "$script.status" ] && wanted=$(<"$script.status")
    if [ -f "$script.stderr" ]; then cat -- "$script.stderr"; fi >"$room/wanted.err"
}

# Whether the script is one of `replay` that names no form itself: it must give the same after a line `board 1`.
is_of_form_one() {
    [ ! -f "$1.args" ] && ! grep -q '^[[:blank:]]*board' "$1"
}

# The script and its output after that line, as two files.
write_in_form_one() {
    { printf 'board 1\n' && cat -- "$1"; } >"$2"
    { printf 'ok\n' && cat -- "$1.stdout"; } >"$2.stdout"
}

# Compares how a run ended, and what it wrote to the files out and err, with what was wanted.
compare_case() {
    local label=$1 status=$2 wanted=$3 output=$4
    if [ "$status" -ne "$wanted" ]; then
        fail "$label: status $status and not $wanted"
    elif ! cmp -s "$room/out" "$output"; then
        fail "$label: what it wrote is not what was wanted"
        diff "$output" "$room/out" | head -n 5
    elif ! cmp -s "$room/err" "$room/wanted.err"; then
        fail "$label: standard error is not as the case has it"
        diff "$room/wanted.err" "$room/err" | head -n 5
    else
        passed=$((passed + 1))
    fi
}

# Whether the words of a case ask for what the first unproved program lacks.
asks_for_whole() {
    [ -f "$1.args" ] && grep -qE '^(sessions$|--memory)' "$1.args"
}

# The file with what a program is to write for a case. The unproved programs are called first and whole.
output_of() {
    case ${2##*/} in
    first | whole) [ -f "$1.unproved" ] && echo "$1.unproved" && return ;;
    esac
    echo "$1.stdout"
}

# Runs a case with a built program, and once more after a line that names form 1, where it may have one.
run_case() {
    local script=$1 program=$2 words wanted
    [ "${program##*/}" = first ] && asks_for_whole "$script" && return
    read_case "$script"
    timeout 120 "$program" ${words[@]+"${words[@]}"} <"$script" >"$room/out" 2>"$room/err"
    compare_case "$script (${program##*/})" $? "$wanted" "$(output_of "$script" "$program")"
    is_of_form_one "$script" || return 0
    write_in_form_one "$script" "$room/formed"
    timeout 120 "$program" replay <"$room/formed" >"$room/out" 2>"$room/err"
    compare_case "$script in form 1 (${program##*/})" $? "$wanted" "$room/formed.stdout"
}

# Runs all cases with each of the programs.
run_cases() {
    local program script before=$((passed + failed))
    while read -r script; do
        for program in "$@"; do run_case "$script" "$program" </dev/null; done
    done < <(cases)
    echo "$self: $((passed + failed - before)) runs of cases, by $# builds of the program"
}
