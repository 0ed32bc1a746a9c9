# What ./board, ./build, ./check and ./prove know of the program. It is read by them and not run: `self` is the name of the
# one that reads it, and `top` the folder of the checkout.
shopt -s globstar nullglob

# One line says why the work cannot be done, and the status is 70.
cannot() {
    printf '%s: %s\n' "$self" "$1" >&2
    exit 70
}

temporary=${TMPDIR:-/tmp}
has_temporary() {
    [ -d "$temporary" ] && [ -w "$temporary" ] || cannot "the temporary folder $temporary is not there or cannot be written"
}

# A program stands in this folder under the stamp of what it was built of, which its name carries: so a program and its
# stamp cannot part, and one that is there is whole. `board.STAMP` is proved. `first.STAMP` and `whole.STAMP` are not: the first program
# is built sooner, and lacks `--memory` and `sessions`.
kept=$top/out
# Puts into `crates` the crates of the repository that the program stands on, lowest first, and its own crate, and into
# `seconds` what the proof of each takes, which stands after its line of crates.txt.
find_crates() {
    local -A uses=() seen=()
    local name parts
    declare -gA seconds=()
    while read -r name parts; do
        case $name in
        *:)
            uses[${name%:}]=${parts%%#*}
            [[ $parts =~ \#\ ([0-9]+)\ s$ ]] && seconds[${name%:}]=${BASH_REMATCH[1]}
            ;;
        esac
    done <"$top/crates.txt"
    crates=()
    add_crate cq_cli
}

add_crate() {
    local below
    [ -n "${uses[$1]+there}" ] && [ -z "${seen[$1]:-}" ] || return 0
    seen[$1]=1
    for below in ${uses[$1]}; do add_crate "$below"; done
    crates+=("$1")
}

# The stamp of the sources: a sum over crates.txt and all code and definitions of the program's crates, and over more files that it
# is given. A proof that is written anew changes neither the program nor what is promised of it.
sources_stamp() {
    local LC_ALL=C crate files=(crates.txt "$@") sum
    cd -P -- "$top" >/dev/null || exit 1
    for crate in "${crates[@]}"; do
        files+=("crates/$crate"/{src/**/*.rt,specs/**/*.antt})
    done
    sum=$(sha256sum -- "${files[@]}" | sha256sum)
    printf '%s\n' "${sum:0:16}"
}

# The stamp of the toolchain: what `rt version` prints. The file that the command prints is read where it is
# there, since the command takes a quarter of a second.
toolchain_stamp() {
    local kit line
    kit=$(readlink -f -- "$(type -P rt)")
    kit=${kit%/*/*}
    if [ -f "$kit/KIT-ID" ]; then line=$(<"$kit/KIT-ID"); else line=$(rt version); fi
    printf '%s\n' "${line//[^[:alnum:].]/-}"
}

# Puts into `unproved` the name of the unproved program of these sources of that kind, first or whole, and into `running` the words that
# run it: the toolchain's loader and its path.
name_unproved() {
    local library
    if [ -z "${unproved_stamp:-}" ]; then
        find_crates
        unproved_stamp=$(sources_stamp scripts/first.edit scripts/unproved.py).$(toolchain_stamp)
    fi
    library=$(readlink -f -- "$(type -P rt)")
    library=${library%/*/*}/toolchain/lib
    unproved=$kept/$1.$unproved_stamp
    running=("$library/ld-linux-x86-64.so.2" --inhibit-cache --library-path "$library" "$unproved")
}

# The same, and builds that program if it is not there, which `$2` says on standard error.
find_unproved() {
    local half old
    type -P python3 >/dev/null || cannot "python3 is not on the PATH"
    has_temporary
    name_unproved "$1"
    [ -x "$unproved" ] && return
    echo "$2" >&2
    { mkdir -p -- "$kept" && half=$(mktemp -- "$kept/part.XXXXXX"); } 2>/dev/null || cannot "the checkout cannot be written: $kept"
    trap 'rm -f -- "$half"; exit 130' INT TERM HUP
    if ! python3 "$top/scripts/unproved.py" build "$1" "$half" <&-; then
        rm -f -- "$half"
        cannot "the unproved program could not be built; what the toolchain said stands above"
    fi
    for old in "$kept"/{first,whole,unproved}.*; do
        case $old in *."$unproved_stamp") ;; *) rm -f -- "$old" ;; esac
    done
    mv -- "$half" "$unproved" || cannot "the checkout cannot be written: $kept"
    trap - INT TERM HUP
}

# Says on standard error, once for each unproved program, that it is the slow one, when the process of that id has used over two seconds
# of a processor. A pipe is opened only then, so that its reader meets its end when the program ends; a file is held, so that nothing in it is
# overwritten. The program's process does not become the parent of this one.
watch_slow() {
    local told=$unproved.told.$UID process=$1 it used ticks
    [ -e "$told" ] && return
    (
        if [ -f /dev/fd/2 ]; then exec 3>&2; else exec 3>&-; fi
        exec </dev/null >/dev/null 2>&1
        for it in /proc/self/fd/*; do
            it=${it##*/}
            [ "$it" -le 3 ] || [ "$it" -eq 255 ] || eval "exec $it>&-"
        done
        (
            ticks=$((2 * $(getconf CLK_TCK)))
            sleep 1.5
            while sleep 0.5; do
                [ "$(readlink "/proc/$process/exe")" = "$(readlink -f -- "${running[0]}")" ] || exit
                read -r used <"/proc/$process/stat" || exit
                read -ra used <<<"${used##*) }"
                [ $((used[11] + used[12])) -lt "$ticks" ] || break
            done
            [ -e /dev/fd/3 ] || exec 3>"/proc/$process/fd/2" || exit
            (set -C && : >"$told") || [ ! -e "$told" ] || exit
            echo "$self: this is the unproved program, many times slower than the proved one; ./build makes that" >&3
        ) &
    )
}
