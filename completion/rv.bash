# bash completion for @PROGRAM@                                            -*- shell-script -*-

# The shown names of the monitors of a bindings file, which is a word as it is typed. Another's file may have any text in the place of
# a name: what is no name is left out.
_@PROGRAM@_monitors() {
    local file=$1
    case $file in
    \'*\' | \"*\") file=${file:1:-1} ;;
    \~/*) file=$HOME/${file#\~/} ;;
    esac
    [ -f "$file" ] || file=${file//\\/}
    [ -f "$file" ] || return
    head -c 1048576 <"$file" 2>/dev/null | LC_ALL=C awk '$1 == "monitor" { print ($6 == "in" ? $7 ":" : "") $2 }' 2>/dev/null |
        LC_ALL=C grep -a -x -E '([a-z0-9_]{1,32}:)?[a-z0-9_]{1,32}'
}

# Offers the lines of standard input that begin with the word. Nothing expands them, as compgen -W would.
_@PROGRAM@_offer() {
    local it
    while IFS= read -r it; do
        [[ $it != "$word"* ]] || COMPREPLY+=("$it")
    done
}

# Offers files with one of these endings, and folders. (A name with a line end makes two lines here, and they name no file.)
_@PROGRAM@_files() {
    local ending it
    compopt -o filenames 2>/dev/null
    while IFS= read -r it; do
        [[ ! -e $it && $word != *[\$~]* ]] || COMPREPLY+=("$it")
    done < <(
        for ending in "$@"; do compgen -f -X "!*.$ending" -- "$word"; done
        compgen -d -- "$word"
    )
}

_@PROGRAM@() {
    local word=$2 line=$COMP_LINE words=() part it
    # a colon parts words for bash, and stands in CONTAINER:NAME
    for ((it = 0; it <= COMP_CWORD; it++)); do
        part=${COMP_WORDS[it]}
        [[ $it -lt $COMP_CWORD || $part == *: ]] || part=$word
        if [[ $it -eq 0 || $line == [[:space:]]* || $part != :* && ${words[${#words[@]} - 1]} != *: ]]; then
            words+=("$part")
        else
            words[${#words[@]} - 1]+=$part
        fi
        line=${line#*"$part"}
    done
    word=${words[${#words[@]} - 1]}
    COMPREPLY=()
    # the script of a checkout, as ./rv, has words of its own
    if [[ ${words[0]} == */* && -r ${words[0]%/*}/tools/first-command.sh ]]; then
        [[ ${#words[@]} -gt 2 ]] || _@PROGRAM@_offer < <(printf '%s\n' --unproved --help --version)
        [[ ${#words[@]} -lt 3 || ${words[1]} != --unproved ]] || words=("${words[0]}" "${words[@]:2}")
    fi
    case $((${#words[@]} - 1)):${words[1]} in
    1:*) _@PROGRAM@_offer < <(printf '%s\n' replay feed watch journal check control load table header) ;;
    2:replay | 2:feed | 2:watch | 2:journal | 2:check | 2:control) _@PROGRAM@_files rv ;;
    3:replay | 3:feed | 3:watch | 3:journal | 3:check) _@PROGRAM@_files txt ;;
    4:watch) _@PROGRAM@_offer < <(_@PROGRAM@_monitors "${words[2]}") ;;
    2:table) _@PROGRAM@_offer < <(printf '%s\n' da ltl) ;;
    3:table) _@PROGRAM@_files "$([ "${words[2]}" = ltl ] && echo ltl || echo dot)" ;;
    3:header) _@PROGRAM@_files dot ;;
    # a script, a journal
    3:control | 4:feed | 4:check) _@PROGRAM@_files '*' ;;
    esac
    # (what stands before the last colon is on the line already)
    if [[ $COMP_WORDBREAKS == *:* && $word == *:* ]]; then
        COMPREPLY=("${COMPREPLY[@]#"${word%"${word##*:}"}"}")
    fi
}

complete -F _@PROGRAM@ @PROGRAM@
