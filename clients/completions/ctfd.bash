# bash completion of the commands: options, values of options that take one of a few words, file
# names, and for ctfd-types the names of the types in a file earlier on the command line.
_ctfd()
{
    local word=${COMP_WORDS[COMP_CWORD]} before=${COMP_WORDS[COMP_CWORD - 1]} options file action=()
    COMPREPLY=()
    [[ ${1##*/} == ctfd-store && $COMP_CWORD -gt 1 ]] && action=("${COMP_WORDS[1]}")
    if [[ ${1##*/} == ctfd-types && -n $word && $word != [-./]* ]]; then
        for file in "${COMP_WORDS[@]:1:COMP_CWORD - 1}"; do
            [[ -f $file ]] || continue
            mapfile -t COMPREPLY < <("$1" --complete "$word" "$file" 2> /dev/null | grep -v ' ')
            [[ ${#COMPREPLY[@]} == 0 ]] || return
        done
    fi
    if [[ $word == -* ]]; then
        options=$("$1" "${action[@]}" --help 2> /dev/null | grep -oE -e '--[a-z][a-z-]*' | sort -u)
    elif [[ $before == --* ]]; then
        options=$("$1" --help 2> /dev/null |
            grep -m1 -oE -e "$before [{<][a-z0-9,|]+[,|][a-z0-9]+[}>]")
        options=${options#*[\{<]}
        options=${options//[\}>,|]/ }
    elif [[ ${1##*/} == ctfd && $COMP_CWORD == 1 ]]; then
        options="serve dump"
    elif [[ ${1##*/} == ctfd-store && $COMP_CWORD == 1 ]]; then
        options="add check fetch list missing remove stats"
    fi
    if [[ -n $options ]]; then
        mapfile -t COMPREPLY < <(compgen -W "$options" -- "$word")
    else
        mapfile -t COMPREPLY < <(compgen -f -- "$word")
        compopt -o filenames 2> /dev/null
    fi
}
complete -F _ctfd ctfd ctfd-convert ctfd-debuginfo ctfd-diff ctfd-explore ctfd-front ctfd-show \
    ctfd-store ctfd-types
