# Completions of arena, arena-check and arena-ladder for bash.

# The words that may follow, of each program and its command.
_arena_words() {
    case "$1 $2" in
        "arena serve") echo "--blocks --workers --help" ;;
        "arena alone") echo "--game --stay --blocks --help" ;;
        "arena live") echo "--blocks --help" ;;
        "arena "*) echo "serve alone live help --help --version" ;;
        "arena-check "*) echo "--json --most --help" ;;
        "arena-ladder play") echo "--part --page --rounds --hours --program --help" ;;
        "arena-ladder standings") echo "--csv --json --help" ;;
        "arena-ladder check" | "arena-ladder page") echo "--program --help" ;;
        "arena-ladder close" | "arena-ladder merge") echo "--help" ;;
        "arena-ladder "*) echo "play standings check close merge page match log games export sprt \
            gauntlet add replace pause resume remove --help" ;;
    esac
}

_arena() {
    local word=${COMP_WORDS[COMP_CWORD]} before=${COMP_WORDS[COMP_CWORD - 1]} command=
    [ "$COMP_CWORD" -lt 2 ] || command=${COMP_WORDS[1]}
    case $before in
        --workers) mapfile -t COMPREPLY < <(compgen -W "1 2 3 4" -- "$word") ;;
        --blocks | --game | --stay | --most | --part | --page) COMPREPLY=() ;;
        *) mapfile -t COMPREPLY < <(compgen -W "$(_arena_words "${1##*/}" "$command")" -- "$word") ;;
    esac
}

complete -o default -F _arena arena arena-check arena-ladder
