# Completions of ffv1restore, mend-reel and mend-collection for bash.
_ffv1restore() {
    local word=${COMP_WORDS[COMP_CWORD]}
    if [ "$COMP_CWORD" -eq 1 ]; then
        mapfile -t COMPREPLY < <(compgen -W "chain show setup take join merge report restore picture splice mend decode samples scan check help version" -- "$word")
        return
    fi
    local command=${COMP_WORDS[1]} place=$COMP_CWORD
    case "$command" in
        take | join | merge | report | restore | picture)
            if [ "$place" -eq 2 ] && [[ $word == -* ]]; then
                mapfile -t COMPREPLY < <(compgen -W "--any" -- "$word")
                return
            fi
            if [ "${COMP_WORDS[2]}" = --any ]; then place=$((place - 1)); fi ;;
    esac
    case "$command:$place" in
        show:[34] | setup:[34] | take:[34] | decode:[34] | samples:[34] | help:* | version:*) COMPREPLY=() ;;
        *) mapfile -t COMPREPLY < <(compgen -f -- "$word") ;;
    esac
}
_mend_reel() {
    local word=${COMP_WORDS[COMP_CWORD]}
    case "${COMP_WORDS[COMP_CWORD - 1]}" in
        --keep | --pictures) mapfile -t COMPREPLY < <(compgen -d -- "$word") ;;
        --jobs) COMPREPLY=() ;;
        *)
            case "$word" in
                -*) mapfile -t COMPREPLY < <(compgen -W "-o --out --check --force --report --json --digest --digests --map --keep --pictures --jobs --quiet --version --help" -- "$word") ;;
                *) mapfile -t COMPREPLY < <(compgen -f -- "$word") ;;
            esac ;;
    esac
}
_mend_collection() {
    local word=${COMP_WORDS[COMP_CWORD]}
    case "${COMP_WORDS[COMP_CWORD - 1]}" in
        --hosts) mapfile -t COMPREPLY < <(compgen -f -- "$word") ;;
        --jobs | --memfree | --retries) COMPREPLY=() ;;
        *)
            case "$word" in
                -*) mapfile -t COMPREPLY < <(compgen -W "-o --out --write --anew --hosts --jobs --memfree --retries --quiet --version --help" -- "$word") ;;
                *) mapfile -t COMPREPLY < <(compgen -d -- "$word") ;;
            esac ;;
    esac
}
complete -o filenames -F _ffv1restore ffv1restore
complete -o filenames -F _mend_reel mend-reel
complete -o filenames -F _mend_collection mend-collection
