# bash completion for the tools around rv                                  -*- shell-script -*-

# Options are those of the tool's --help, and files are those that it reads by their endings.
_rv_tools() {
    local word=$2 before=$3 tool=${1##*/} endings ending it
    COMPREPLY=()
    case $word in
    -*)
        # (the tool that is asked is that of the PATH: a key runs nothing of a folder that one looks into)
        tool=$(type -P -- "$tool") || return
        while IFS= read -r it; do
            [[ $it != "$word"* ]] || COMPREPLY+=("$it")
        done < <({ echo --help && "$tool" --help 2>/dev/null; } | sed '/^$/q' | LC_ALL=C grep -a -o -e '--[a-z][a-z-]*' | LC_ALL=C sort -u)
        return
        ;;
    esac
    case $tool in
    rv-record | rv-filter | rv-parts) endings='rv' ;;
    rv-compare-kernel | rv-kselftest | rv-perfetto | rv-timeline) endings='rv txt' ;;
    rv-draw) endings='dot ltl' ;;
    rv-monitors) endings='txt' ;;
    esac
    case $before in
    --bindings) endings='rv' ;;
    --monitor | --lines | --jobs | --show | --name | --buffer | --retries | --timeout) return ;;
    # a report, a map, a program, a page
    --*) [ "$before" = --editor ] || [ "$before" = --run ] || endings= ;;
    esac
    compopt -o filenames 2>/dev/null
    # (a name with a line end makes two lines here, and they name no file)
    while IFS= read -r it; do
        [[ ! -e $it && $word != *[\$~]* ]] || COMPREPLY+=("$it")
    done < <(
        for ending in ${endings:-'*'}; do
            if [ "$ending" = '*' ]; then compgen -f -- "$word"; else compgen -f -X "!*.$ending" -- "$word"; fi
        done
        [ -z "$endings" ] || compgen -d -- "$word"
    )
}

complete -F _rv_tools @TOOLS@
