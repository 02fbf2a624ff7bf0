# Completion of asm in bash, for asm 1.0: its options, and the images that aren't named yet. Of bash alone.

_asm() {
    local word=${COMP_WORDS[COMP_CWORD]} before=${COMP_WORDS[COMP_CWORD - 1]} named path at images=
    COMPREPLY=()
    # a number follows, which nobody can complete
    [[ $before == --generate ]] && return
    for ((at = 1; at < COMP_CWORD; at++)); do
        [[ ${COMP_WORDS[at]} == -- ]] && images=only
    done
    if [[ $word == -* && -z $images ]]; then
        # help and version are asked for by a word alone
        if ((COMP_CWORD == 1)); then
            mapfile -t COMPREPLY < <(compgen -W '--generate --help --version -h -V --' -- "$word")
        else
            mapfile -t COMPREPLY < <(compgen -W '--generate --' -- "$word")
        fi
        return
    fi
    compopt -o filenames 2>/dev/null
    while IFS= read -r path; do
        named=
        for ((at = 1; at < ${#COMP_WORDS[@]}; at++)); do
            [[ $at != "$COMP_CWORD" && ${COMP_WORDS[at]} == "$path" ]] && named=yes
        done
        # an image is named once
        [[ $named ]] || COMPREPLY+=("$path")
    done < <(compgen -f -- "$word")
}

complete -F _asm asm
