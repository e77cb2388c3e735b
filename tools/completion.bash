# Completion of the words of `timeweave` in bash. `make install` copies it to share/bash-completion/completions/timeweave;
# `source tools/completion.bash` is enough to try it.
#
# The forms of the commands, a line each: a word in small letters stands for itself, DIR for a folder, FILE for a
# file, whatever else is in capitals is typed by hand, and .. is for more of the part before it.
_timeweave_forms=(
    "init DIR NAME"
    "append DIR FILE TIME"
    "prove DIR event STEP INDEX TOP"
    "prove DIR link STEP TOP"
    "prove DIR thread STEP PEER K TOP"
    "prove DIR absent STEP PEER K TOP"
    "map DIR low STEP PEER TOP"
    "map DIR high POS PEER TOP"
    "export DIR"
    "show FILE STEP INDEX"
    "join FILE FILE .."
    "accuse FILE FILE FILE"
    "verify FILE FILE"
    "verify FILE NAME POS HEX"
    "strict FILE FILE"
    "checkmap FILE FILE FILE"
    "checkfork FILE FILE"
    "audit FILE FILE FILE .."
    "adopt FILE FILE FILE .."
    "thread DIR SINCE"
    "receive DIR FILE TIME"
    "atlas NAME POS FILE .."
    "watch DIR NAME"
    "offer DIR FILE"
    "heads DIR"
    "replay FILE"
    "generate NUMBER STEPS"
)

# Whether the words before the one that is completed are those of the form that is given part by part.
_timeweave_goes_on() {
    local parts=(timeweave "$@") i
    ((COMP_CWORD < ${#parts[@]})) || return 1
    for ((i = 1; i < COMP_CWORD; i++)); do
        [[ ${parts[i]} != [[:lower:]]* || ${parts[i]} == "${COMP_WORDS[i]}" ]] || return 1
    done
}

# Offers what may stand next in any form that goes on.
_timeweave() {
    local word=${COMP_WORDS[COMP_CWORD]} form parts part tried=" " offered
    COMPREPLY=()
    for form in "${_timeweave_forms[@]}"; do
        read -ra parts <<< "$form"
        if [[ ${parts[-1]} == .. ]]; then
            unset 'parts[-1]'
            while ((${#parts[@]} < COMP_CWORD)); do parts+=("${parts[-1]}"); done
        fi
        _timeweave_goes_on "${parts[@]}" || continue
        part=${parts[COMP_CWORD - 1]}
        [[ $tried == *" $part "* ]] && continue
        tried+="$part "
        offered=()
        case $part in
            DIR) compopt -o filenames 2> /dev/null; mapfile -t offered < <(compgen -d -- "$word") ;;
            FILE) compopt -o filenames 2> /dev/null; mapfile -t offered < <(compgen -f -- "$word") ;;
            [[:lower:]]*) mapfile -t offered < <(compgen -W "$part" -- "$word") ;;
        esac
        COMPREPLY+=("${offered[@]}")
    done
}

complete -F _timeweave timeweave
