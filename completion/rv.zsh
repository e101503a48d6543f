#compdef @PROGRAM@
# zsh completion for @PROGRAM@

# The shown names of the monitors of a bindings file. Another's file may have any text in the place of a name: what is none is left out.
_@PROGRAM@_monitors() {
    local -a monitors
    local file=${(Q)words[3]}
    [[ $words[3] != \~/* ]] || file=$HOME/${file#\~/}
    [[ -f $file ]] || return 1
    monitors=(${(f)"$(head -c 1048576 <$file 2>/dev/null | LC_ALL=C awk '$1 == "monitor" { print ($6 == "in" ? $7 ":" : "") $2 }' 2>/dev/null |
        LC_ALL=C grep -a -x -E '([a-z0-9_]{1,32}:)?[a-z0-9_]{1,32}')"})
    compadd -a monitors
}

_@PROGRAM@() {
    local -a commands
    commands=(
        'replay:the report of a run in the order of the trace'
        'feed:the report of a run with a thread for each CPU'
        'watch:the same, and the words of one instance'
        'journal:the history of such a run'
        'check:whether a text is the journal of a legal history'
        'control:commands on the control files, without a trace'
        'load:feed on a generated input'
        'table:the table of an automaton or of a rule'
        'header:an automaton as C tables'
    )
    # the script of a checkout, as ./rv, has words of its own
    if [[ $words[1] = */* && -r ${words[1]:h}/tools/first-command.sh ]]; then
        if ((CURRENT == 2)); then
            commands+=(
                '--unproved:an answer before any proof'
                '--help:the forms of the words'
                '--version:the version and the kit'
            )
        elif [[ $words[2] = --unproved ]]; then
            words[2]=()
            ((CURRENT--))
        fi
    fi
    if ((CURRENT == 2)); then
        _describe command commands
        return
    fi
    case $CURRENT:$words[2] in
    3:(replay|feed|watch|journal|check|control)) _files -g '*.rv' ;;
    4:(replay|feed|watch|journal|check)) _files -g '*.txt' ;;
    5:watch) _@PROGRAM@_monitors ;;
    3:table) compadd da ltl ;;
    4:table) if [[ $words[3] = ltl ]]; then _files -g '*.ltl'; else _files -g '*.dot'; fi ;;
    4:header) _files -g '*.dot' ;;
    # a script, a journal
    4:control | 5:(feed|check)) _files ;;
    esac
}

_@PROGRAM@ "$@"
