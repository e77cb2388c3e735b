"""The completion in bash, made of what the code says of the words: which words there are, what each takes, and which options it has.

    python3 -m weft.completion > weft/completion.bash"""

from __future__ import annotations

import argparse
from typing import Iterator

from weft.output import say_whole
from weft.words import WORDS, module_of

FOLDERS = ("DIR", "BOX", "BOX/PEER", "SERVICE", "FOLDER")
FILES = ("FILE", "DIR|HISTORY", "PROOF", "HISTORY", "F", "OUT", "OUT.html", "KEY", "KEY.pub", "LINE", "LINES", "STAMP", "EARLIER", "LATER", "CA", "CERT")

HEAD = """# Completion of the words of `weft` in bash, made by `python3 -m weft.completion`. `make install` copies it to
# share/bash-completion/completions/weft; `source weft/completion.bash` is enough to try it.
#
# A line for each word, with what it takes: DIR for a folder, FILE for a file, TEXT for what is typed by hand, .. for more of the part before it;
# and its options, behind = what they take.
_weft_forms=(
"""

REST = """)

# Offers the folders, files or words that may stand next.
_weft() {
    local word=${COMP_WORDS[COMP_CWORD]} form part i place=0 kind= kinds=() options=() next=() offered=()
    COMPREPLY=()
    if ((COMP_CWORD == 1)); then
        mapfile -t COMPREPLY < <(compgen -W "${_weft_forms[*]%% *} --help --version" -- "$word")
        return
    fi
    for form in "${_weft_forms[@]}"; do
        [[ ${form%% *} == "${COMP_WORDS[1]}" ]] || continue
        for part in ${form#* }; do
            if [[ $part == --* ]]; then options+=("$part"); else kinds+=("$part"); fi
        done
    done
    for ((i = 2; i < COMP_CWORD; i++)); do
        if ((${#next[@]})); then
            next=("${next[@]:1}")
        elif [[ ${COMP_WORDS[i]} == --* ]]; then
            for part in "${options[@]}"; do
                [[ $part != "${COMP_WORDS[i]}="* ]] || IFS=, read -ra next <<< "${part#*=}"
            done
        else
            place=$((place + 1))
        fi
    done
    if ((${#next[@]})); then
        kind=${next[0]}
    elif [[ $word == -* ]]; then
        mapfile -t COMPREPLY < <(compgen -W "${options[*]%%=*}" -- "$word")
        return
    elif ((${#kinds[@]})); then
        if [[ ${kinds[-1]} == .. ]]; then
            unset 'kinds[-1]'
            while ((${#kinds[@]} <= place)); do kinds+=("${kinds[-1]}"); done
        fi
        kind=${kinds[place]-}
    fi
    case $kind in
        DIR) compopt -o filenames 2> /dev/null; mapfile -t offered < <(compgen -d -- "$word") ;;
        FILE) compopt -o filenames 2> /dev/null; mapfile -t offered < <(compgen -f -- "$word") ;;
    esac
    COMPREPLY=("${offered[@]}")
}

complete -F _weft weft
"""


def kind_of(metavar: str) -> str:
    """What stands in the place of a word of the help."""
    return "DIR" if metavar in FOLDERS else "FILE" if metavar in FILES else "TEXT"


def kinds_of(action: argparse.Action) -> list[str]:
    """What a word or an option takes."""
    if action.nargs == 0:
        return []
    names = action.metavar if isinstance(action.metavar, tuple) else (action.metavar or "",)
    return [kind_of(name) for name in names]


def form(word: str) -> str:
    """The line of a word."""
    parser = argparse.ArgumentParser(prog=f"weft {word}")
    module_of(word).add(parser)
    taken = [part for action in parser._actions if not action.option_strings for part in (*kinds_of(action), *([".."] if action.nargs in ("*", "+") else []))]
    options = [
        name + (f"={','.join(kinds_of(action))}" if kinds_of(action) else "") for action in parser._actions for name in action.option_strings if name.startswith("--")
    ]
    return " ".join([word, *taken, *options])


def lines() -> Iterator[str]:
    """The lines of the words."""
    yield from (f'    "{form(word)}"\n' for word in WORDS)


def script() -> str:
    """The completion."""
    return HEAD + "".join(lines()) + REST


if __name__ == "__main__":
    for line in script().splitlines():
        say_whole(line)
