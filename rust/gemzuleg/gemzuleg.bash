# Completion of gemzuleg for bash: commands, options, files by their ending, ways, and the names of the sheet, also behind a +.

# The names of the items of the sheet that stands on the line.
_gemzuleg_names() {
    local word
    for word in "${COMP_WORDS[@]:2}"; do
        [[ $word == *.sheet && -r $word ]] && awk 'NR > 1 && NF == 0 { exit } NR > 1 { print $1 }' "$word" && return
    done
}

# Files of an ending, and folders.
_gemzuleg_files() {
    compopt -o filenames 2> /dev/null
    mapfile -t COMPREPLY < <(compgen -f -X "!*.$1" -- "$2"; compgen -d -- "$2")
}

# One of some words; behind a + the next name, with what stands before it.
_gemzuleg_words() {
    local before=''
    [[ $2 == *+* ]] && before=${2%+*}+
    mapfile -t COMPREPLY < <(compgen -P "$before" -W "$1" -- "${2##*+}")
}

_gemzuleg() {
    local now=${COMP_WORDS[COMP_CWORD]} last=${COMP_WORDS[COMP_CWORD - 1]} command=${COMP_WORDS[1]} place=0 i
    COMPREPLY=()
    if ((COMP_CWORD == 1)); then
        _gemzuleg_words 'example check tidy paper report list routes harden kinds bags mark class why reach lose pool graph explain --help --version' "$now"
        return
    fi
    case $command in
        mark) [[ $now == -* ]] && { _gemzuleg_words '--each --why --missing' "$now"; return; } ;;
        class)
            [[ $now == -* ]] && { _gemzuleg_words '--summary --papers' "$now"; return; }
            [[ $last == --papers ]] && { compopt -o filenames 2> /dev/null; mapfile -t COMPREPLY < <(compgen -d -- "$now"); return; }
            ;;
        paper)
            [[ $now == -* ]] && { _gemzuleg_words '--answers --reach --kinds' "$now"; return; }
            [[ $last == --reach ]] && { _gemzuleg_words "$(_gemzuleg_names)" "$now"; return; }
            [[ $last == --kinds ]] && { _gemzuleg_files kinds "$now"; return; }
            ;;
        graph)
            [[ $now == -* ]] && { _gemzuleg_words '--reach --lose' "$now"; return; }
            [[ $last == --reach || $last == --lose ]] && { _gemzuleg_words "$(_gemzuleg_names)" "$now"; return; }
            ;;
    esac
    # the place among the words that are no options
    for ((i = 2; i <= COMP_CWORD; i++)); do
        [[ ${COMP_WORDS[i]} == --* || ${COMP_WORDS[i - 1]} =~ ^--(reach|lose|kinds|papers)$ ]] || place=$((place + 1))
    done
    case $command:$place in
        example:1) _gemzuleg_words 'sheet handins kinds' "$now" ;;
        explain:*) _gemzuleg_words "$(echo {1..27})" "$now" ;;
        tidy:1) _gemzuleg_files '*' "$now" ;;
        check:* | class:* | pool:* | *:1) _gemzuleg_files sheet "$now" ;;
        kinds:2) _gemzuleg_files kinds "$now" ;;
        mark:2) _gemzuleg_files handins "$now" ;;
        list:3 | why:3) _gemzuleg_words 'open lock' "$now" ;;
        *) _gemzuleg_words "$(_gemzuleg_names)" "$now" ;;
    esac
}

complete -F _gemzuleg gemzuleg
