# Completions of hwtool for bash, made from what it says of its words.
_hwtool() {
    local word=${COMP_WORDS[COMP_CWORD]} before=${COMP_WORDS[COMP_CWORD - 1]} words=
    COMPREPLY=()
    if [ "$COMP_CWORD" = 1 ]; then
        mapfile -t COMPREPLY < <(compgen -W 'lower check-btor show cost fit unfit aig-convert check-aig lift restore wave obligation check-proof tidy-witness vectors judge explain help --help --version' -- "$word")
        return
    fi
    case $before in
        --bad|--pick) return ;;
    esac
    case ${COMP_WORDS[1]} in
        lower) words='--quiet --output --ascii --binary --engine --bad --fit --help' ;;
        check-btor) words='--quiet --names --bad --json --fit --help' ;;
        show) words='--quiet --output --fit --help' ;;
        cost) words='--quiet --fit --help' ;;
        fit) words='--quiet --output --help' ;;
        unfit) words='--quiet --output --names --back --help' ;;
        aig-convert) words='--quiet --output --ascii --binary --outputs --engine --bad --help' ;;
        check-aig) words='--quiet --names --bad --json --help' ;;
        lift) words='--quiet --output --names --engine --abc --bad --fit --help' ;;
        restore) words='--quiet --output --abc --bad --help' ;;
        wave) words='--quiet --output --all --help' ;;
        obligation) words='--quiet --output --aiger --circuit --engine --bad --fit --help' ;;
        check-proof) words='--quiet --names --aiger --circuit --engine --bad --lrat --json --fit --help' ;;
        tidy-witness) words='--quiet --output --pick --help' ;;
        vectors) words='--quiet --help' ;;
        judge) words='--json --help' ;;
        explain) words='--help' ;;
    esac
    if [[ $word == -* ]]; then
        mapfile -t COMPREPLY < <(compgen -W "$words" -- "$word")
    else
        mapfile -t COMPREPLY < <(compgen -f -- "$word")
    fi
}
complete -o filenames -F _hwtool hwtool
