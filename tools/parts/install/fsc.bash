# Completion of the words of fsc for bash; after these, and after <, files.
_fsc() {
    local word="${COMP_WORDS[COMP_CWORD]}" at=1 words=()
    [ "$COMP_CWORD" -gt 1 ] && [ "${COMP_WORDS[1]}" = --unproved ] && at=2
    case "${COMP_WORDS[*]:at:COMP_CWORD-at}" in
        "")
            words=(replay replay-linked gen dump inspect check --help --version)
            # the command of a checkout
            [[ $at = 1 && ${COMP_WORDS[0]} = */* && -d ${COMP_WORDS[0]%/*}/crates ]] && words+=(--unproved)
            ;;
        replay) words=(--serial --seed) ;;
        "replay --serial") words=(--seed) ;;
        replay-linked) words=(--serial --seed) ;;
        "replay-linked --serial") words=(--seed) ;;
        dump) words=(--seed) ;;
        check) words=(--strict --seed) ;;
        "check --strict") words=(--seed) ;;
        inspect) words=(raw:) ;;
        "gen "*[0-9]) words=(--summary) ;;
    esac
    mapfile -t COMPREPLY < <(compgen -W "${words[*]}" -- "$word")
}
complete -o default -F _fsc fsc
