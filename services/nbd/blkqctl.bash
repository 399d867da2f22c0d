# Completes the words of blkqctl in bash.
_blkqctl() {
    local word=${COMP_WORDS[COMP_CWORD]} place=$COMP_CWORD first=1 choices= i
    while [[ ${COMP_WORDS[first]} == -* ]] && ((first < place)); do
        [[ ${COMP_WORDS[first]} != @(--timeout|--label|--tls-certificates) ]] || first=$((first + 1))
        first=$((first + 1))
    done
    if ((place <= first)); then
        mapfile -t COMPREPLY < <(compgen -W 'group --timeout --label --json --verbose --tls-certificates --version' -- "$word"; compgen -f -- "$word")
        return
    fi
    for ((i = first + 1; i < place; i++)); do # a COMMAND follows --
        if [[ ${COMP_WORDS[i]} == -- ]]; then
            mapfile -t COMPREPLY < <(compgen -c -f -- "$word")
            return
        fi
    done
    if [[ ${COMP_WORDS[first]} == group ]]; then
        mapfile -t COMPREPLY < <(compgen -W '-- --live --once --deadline --hold --before --after --timeout --label --json --verbose --tls-certificates' -- "$word"; compgen -f -- "${word#*=}")
        return
    fi
    case $((place - first)):${COMP_WORDS[first + 1]} in
        1:*) choices='quiesce freeze backup holders requests thaw set mode stat metrics watch --help' ;;
        2:thaw) choices=all ;;
        *:backup) choices='--to --live --incremental --deadline --hold --export' ;;
        2:mode) choices='slots atomic' ;;
        *:set) ((place % 2 == first % 2)) && choices='max_sectors chunk_sectors physical_sectors' ;;
        *:watch) choices='-n -c' ;;
        2:quiesce | 2:freeze) choices='-- --hold --keep' ;;
        *:quiesce | *:freeze) choices=-- ;;
    esac
    mapfile -t COMPREPLY < <(compgen -W "$choices" -- "$word")
}
complete -F _blkqctl blkqctl
