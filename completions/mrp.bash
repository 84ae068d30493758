# The words of mrp in bash. tools/completions writes this file from what mrp says in its help.
_mrp() {
    local word=${COMP_WORDS[COMP_CWORD]} before=${COMP_WORDS[COMP_CWORD - 1]} words=
    case $before in
        --workers | --capacity | --until | --from | --to) return ;;
    esac
    if [ "$COMP_CWORD" -eq 1 ]; then
        words="plan check peg cums orders schedule pegs advice shortages help --help --version"
    else
        case ${COMP_WORDS[1]} in
            plan) words="--workers --capacity --single --whole --large --help" ;;
            check) words="--reach --header --whole --large --help" ;;
            peg) words="--header --whole --large --help" ;;
            cums) words="--header --whole --large --help" ;;
            orders) words="--until --header --whole --large --help" ;;
            schedule) words="--from --to --header --whole --large --help" ;;
            pegs) words="--header --whole --large --help" ;;
            advice) words="--until --reach --header --whole --large --help" ;;
            shortages) words="--header --whole --large --help" ;;
            help) words="plan check peg cums orders schedule pegs advice shortages" ;;
            *) words="--help" ;;
        esac
    fi
    mapfile -t COMPREPLY < <(compgen -W "$words" -- "$word")
}
complete -F _mrp mrp
