#compdef @TOOLS@
# zsh completion for the tools around rv: the options of a tool's --help, and the files that it reads by their endings

local -a known
local ending
if [[ $PREFIX = -* ]]; then
    # (the tool that is asked is that of the PATH: a key runs nothing of a folder that one looks into)
    [[ -n $commands[${words[1]:t}] ]] || return 1
    known=(--help ${(fu)"$($commands[${words[1]:t}] --help 2>/dev/null | sed '/^$/q' | LC_ALL=C grep -a -o -e '--[a-z][a-z-]*')"})
    compadd -a known
    return
fi
case ${words[1]:t} in
rv-record|rv-filter|rv-parts) ending='*.rv' ;;
rv-compare-kernel|rv-kselftest|rv-perfetto|rv-timeline) ending='*.(rv|txt)' ;;
rv-draw) ending='*.(dot|ltl)' ;;
rv-monitors) ending='*.txt' ;;
esac
case ${words[CURRENT - 1]} in
--bindings) ending='*.rv' ;;
--monitor|--lines|--jobs|--show|--name|--buffer|--retries|--timeout) return ;;
--editor|--run) ;;
# a report, a map, a program, a page
--*) ending= ;;
esac
_files ${ending:+-g $ending}
