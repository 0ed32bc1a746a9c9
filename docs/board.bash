# Completions of board for bash, by `source board.bash`. scripts/manual makes them of what the program prints of itself.

# What may stand behind a command: its options, those that take a value, those that take a file, and what other words are.
_board_words() {
    options='' valued='' filed='' takes=''
    case $1 in
    '') options='-h --help -V --version' takes='commands' ;;
    replay) options='--number --strict --summary --why --progress --memory -h --help' valued='--memory' takes='files' ;;
    live) options='--json --checkpoint --memory -h --help' valued='--checkpoint --memory' takes='files' ;;
    rows) options='--header --delimiter --memory -h --help' valued='--delimiter --memory' takes='files' ;;
    sessions) options='--memory -h --help' valued='--memory' takes='files' ;;
    explain) options='--tree --roots --file --progress --memory -h --help' valued='--file --memory' filed='--file' ;;
    graph) options='--only --clusters --progress --memory -h --help' valued='--only --memory' takes='files' ;;
    json) options='--progress --memory -h --help' valued='--memory' takes='files' ;;
    dump) options='--progress --memory -h --help' valued='--memory' takes='files' ;;
    choice) options='--file --progress --memory -h --help' valued='--file --memory' filed='--file' ;;
    choose) options='--steps --file --progress --memory -h --help' valued='--steps --file --memory' filed='--file' ;;
    groups) options='--steps --progress --memory -h --help' valued='--steps --memory' takes='files' ;;
    version) options='-h --help' ;;
    help) takes='commands' ;;
    esac
}

_board_files() {
    compopt -o filenames -o default 2>/dev/null
    mapfile -t COMPREPLY < <(compgen -f -- "$1")
}

_board() {
    local commands='replay live rows sessions explain graph json dump choice choose groups version help'
    local word=${COMP_WORDS[COMP_CWORD]} command='' wants='' ended='' given=0 place it
    local options valued filed takes
    COMPREPLY=()
    _board_words ''
    for ((place = 1; place < COMP_CWORD; place++)); do
        it=${COMP_WORDS[place]}
        if [ "$it" = = ]; then
            wants=${wants:-value}
        elif [ -n "$wants" ]; then
            wants=''
        elif [[ $it == *[\<\>] ]]; then
            wants='file'
        elif [ -z "$ended" ] && [ "$it" = -- ]; then
            ended=1
        elif [ -z "$ended" ] && [[ $it == -* ]]; then
            if [[ " $filed " == *" $it "* ]]; then
                wants='file'
            elif [[ " $valued " == *" $it "* ]]; then
                wants='value'
            fi
        elif [ -z "$command" ]; then
            command=$it
            _board_words "$command"
        else
            given=$((given + 1))
        fi
    done
    if [[ $word == *[\<\>] ]]; then
        word='' wants='file'
    elif [ "$word" = = ]; then
        word='' wants=${wants:-value}
    fi
    if [ "$wants" = file ]; then
        _board_files "$word"
    elif [ -n "$wants" ]; then
        return
    elif [ -z "$ended" ] && [[ $word == -* ]]; then
        mapfile -t COMPREPLY < <(compgen -W "$options" -- "$word")
    elif [ "$takes" = commands ] && [ "$given" -eq 0 ]; then
        mapfile -t COMPREPLY < <(compgen -W "$commands" -- "$word")
    elif [ "$takes" = files ]; then
        _board_files "$word"
    elif [ -z "$ended$word" ]; then
        mapfile -t COMPREPLY < <(compgen -W "$options")
    fi
}

complete -F _board board
