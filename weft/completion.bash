# Completion of the words of `weft` in bash, made by `python3 -m weft.completion`. `make install` copies it to
# share/bash-completion/completions/weft; `source weft/completion.bash` is enough to try it.
#
# A line for each word, with what it takes: DIR for a folder, FILE for a file, TEXT for what is typed by hand, .. for more of the part before it;
# and its options, behind = what they take.
_weft_forms=(
    "line DIR --help --sign=FILE --introduce=FILE --out=FILE --letter=FILE --wait=TEXT --json"
    "keep FILE --help --by=TEXT --signer=TEXT,FILE --beside --introduced=FILE --choose --found --stamp=FILE --authority=TEXT,FILE --authorities=DIR --never-sent=TEXT,DIR --kept=FILE --signers=FILE --json"
    "tell FILE .. --help --json"
    "list FILE TEXT .. --help --json"
    "judge FILE .. --help --kept=FILE --signers=FILE --authorities=DIR --file=FILE --beacon=TEXT,FILE --audit=FILE --carried --top=TEXT --svg=FILE --report=FILE --many=DIR --table=FILE --workers=TEXT --dask=TEXT --tls=FILE,FILE,FILE --reference --json"
    "log DIR DIR TEXT --help --all --no-time --gone --all-read=TEXT --workers=TEXT --adopt-store=FILE --wait=TEXT --unproved --json"
    "record DIR FILE .. --help --name=TEXT --event=TEXT --key=FILE --input=TEXT --serve --idle=TEXT --no-time --adopt-store=FILE --wait=TEXT --unproved --json"
    "find DIR TEXT .. --help --text=TEXT --all --proofs=DIR --json"
    "prove DIR FILE --help --many --step=TEXT --top=TEXT --for=FILE --out=FILE --json"
    "exchange DIR DIR --help --despite=TEXT --look --adopt-store=FILE --wait=TEXT --unproved --json"
    "fetch TEXT DIR --help --wait=TEXT --json"
    "publish DIR FILE --help --wait=TEXT --json"
    "accept DIR TEXT FILE --help --key=FILE --beside --introduced=FILE --yes=TEXT --json"
    "chain FILE FILE --help --store=DIR --box=DIR --hand=FILE --kept=FILE --signers=FILE --for=FILE --out=FILE --svg=FILE --reference --json"
    "check DIR --help --all --entries --kept=FILE --signers=FILE --workers=TEXT --wait=TEXT --json"
    "backup DIR DIR TEXT --help --keys --wait=TEXT --json"
    "restore FILE DIR DIR --help --held=FILE --key=FILE --wait=TEXT --json"
    "status DIR DIR --help --days=TEXT --json"
    "stamp FILE --help --url=TEXT --renew=FILE --out=FILE --kept=FILE --authorities=DIR --seconds=TEXT --json"
    "bundle FILE FILE TEXT --help --file=FILE --line=FILE --kept=FILE --reference --json"
)

# Offers the folders, files or words that may stand next.
_weft() {
    local word=${COMP_WORDS[COMP_CWORD]} form part i place=0 kind= kinds=() options=() next=() offered=()
    COMPREPLY=()
    if ((COMP_CWORD == 1)); then
        mapfile -t COMPREPLY < <(compgen -W "${_weft_forms[*]%% *} --help --version" -- "$word")
        return
    fi
    for form in "${_weft_forms[@]}"; do
        [[ ${form%% *} == "${COMP_WORDS[1]}" ]] || continue
        for part in ${form#* }; do
            if [[ $part == --* ]]; then options+=("$part"); else kinds+=("$part"); fi
        done
    done
    for ((i = 2; i < COMP_CWORD; i++)); do
        if ((${#next[@]})); then
            next=("${next[@]:1}")
        elif [[ ${COMP_WORDS[i]} == --* ]]; then
            for part in "${options[@]}"; do
                [[ $part != "${COMP_WORDS[i]}="* ]] || IFS=, read -ra next <<< "${part#*=}"
            done
        else
            place=$((place + 1))
        fi
    done
    if ((${#next[@]})); then
        kind=${next[0]}
    elif [[ $word == -* ]]; then
        mapfile -t COMPREPLY < <(compgen -W "${options[*]%%=*}" -- "$word")
        return
    elif ((${#kinds[@]})); then
        if [[ ${kinds[-1]} == .. ]]; then
            unset 'kinds[-1]'
            while ((${#kinds[@]} <= place)); do kinds+=("${kinds[-1]}"); done
        fi
        kind=${kinds[place]-}
    fi
    case $kind in
        DIR) compopt -o filenames 2> /dev/null; mapfile -t offered < <(compgen -d -- "$word") ;;
        FILE) compopt -o filenames 2> /dev/null; mapfile -t offered < <(compgen -f -- "$word") ;;
    esac
    COMPREPLY=("${offered[@]}")
}

complete -F _weft weft
