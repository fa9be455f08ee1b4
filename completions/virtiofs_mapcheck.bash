# What bash completes after virtiofs_mapcheck: its forms, and the words of the form `ids`.
_virtiofs_mapcheck()
{
    local word=${COMP_WORDS[COMP_CWORD]} words="" before
    if ((COMP_CWORD == 1)); then
        words="ids ns client server terminated audit apart"
    elif [[ ${COMP_WORDS[1]} == ids ]]; then
        words="map: guest: host: squash-guest: squash-host: forbid-guest: ask"
        for before in "${COMP_WORDS[@]:2:COMP_CWORD-2}"; do
            [[ $before == ask ]] && words="guest= host="
        done
    fi
    mapfile -t COMPREPLY < <(compgen -W "$words" -- "$word")
    # (no blank goes between such a word and its numbers)
    [[ ${#COMPREPLY[@]} == 1 && ${COMPREPLY[0]} == *[:=] ]] && compopt -o nospace
    return 0
}
complete -F _virtiofs_mapcheck virtiofs_mapcheck
