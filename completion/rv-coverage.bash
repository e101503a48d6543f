# bash completion for rv-coverage                                          -*- shell-script -*-

_rv_coverage() {
    local word=$2 ending it at=$COMP_CWORD script=${COMP_WORDS[0]}
    COMPREPLY=()
    # the script of a checkout, as ./rv-coverage, has words of its own
    if [[ $script == */* && -r ${script%/*}/tools/first-command.sh ]]; then
        if [[ $at -eq 1 && $word == -* ]]; then
            for it in --unproved --help --version; do
                [[ $it != "$word"* ]] || COMPREPLY+=("$it")
            done
            return
        fi
        [[ $at -lt 2 || ${COMP_WORDS[1]} != --unproved ]] || at=$((at - 1))
    fi
    case $at in
    1) ending=rv ;;
    2) ending=txt ;;
    3)
        [[ edges != "$word"* ]] || COMPREPLY=(edges)
        return
        ;;
    *) return ;;
    esac
    compopt -o filenames 2>/dev/null
    # (a name with a line end makes two lines here, and they name no file)
    while IFS= read -r it; do
        [[ ! -e $it && $word != *[\$~]* ]] || COMPREPLY+=("$it")
    done < <(
        compgen -f -X "!*.$ending" -- "$word"
        compgen -d -- "$word"
    )
}

complete -F _rv_coverage rv-coverage
