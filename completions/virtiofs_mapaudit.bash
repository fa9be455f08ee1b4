# What bash completes after virtiofs_mapaudit: its options, after a `--` those of them that a daemon has, and the words with
# which their values begin.
_virtiofs_mapaudit()
{
    local word=${COMP_WORDS[COMP_CWORD]} option=${COMP_WORDS[COMP_CWORD-1]} words before
    # (bash takes a = for a word of its own)
    [[ $word == = ]] && word=""
    [[ $option == = ]] && option=${COMP_WORDS[COMP_CWORD-2]}
    case $option in
        --translate-uid | --translate-gid) words="map: guest: host: squash-guest: squash-host: forbid-guest:" ;;
        --uid-map | --gid-map | --xattrmap | --accept-from | --pid | --run-as | --subuid | --subgid) words="" ;;
        --accept)
            words="root not_back lacking kept range other_ranges posix_acl acl_untranslated no_start no_rule not_listed"
            words+=" listed_elsewhere idle_rule acl_renamed id_of_both shown_to_other name_of_both"
            ;;
        --show) words="ids names" ;;
        --explain) words="user= host-user= group= host-group= name= host-name=" ;;
        *)
            words="--translate-uid --translate-gid --uid-map --gid-map --xattrmap --xattr --posix-acl"
            words+=" --show --accept --accept-from --explain --pid --running --run-as --subuid --subgid --svg --json --quiet --mend"
            words+=" --help --version"
            for before in "${COMP_WORDS[@]:1:COMP_CWORD-1}"; do
                [[ $before == -- ]] && words=${words%% --show*}
            done
            ;;
    esac
    mapfile -t COMPREPLY < <(compgen -W "$words" -- "$word")
    # (no blank goes between such a word and its numbers)
    [[ ${#COMPREPLY[@]} == 1 && ${COMPREPLY[0]} == *[:=] ]] && compopt -o nospace
    return 0
}
complete -F _virtiofs_mapaudit virtiofs_mapaudit
