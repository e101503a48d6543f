#compdef rv-coverage
# zsh completion for rv-coverage

# the script of a checkout, as ./rv-coverage, has words of its own
if [[ $words[1] = */* && -r ${words[1]:h}/tools/first-command.sh ]]; then
    if ((CURRENT == 2)) && [[ $PREFIX = -* ]]; then
        compadd -- --unproved --help --version
        return
    elif [[ $words[2] = --unproved ]] && ((CURRENT > 2)); then
        words[2]=()
        ((CURRENT--))
    fi
fi
case $CURRENT in
2) _files -g '*.rv' ;;
3) _files -g '*.txt' ;;
4) compadd edges ;;
esac
