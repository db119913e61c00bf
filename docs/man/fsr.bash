# The words of fsr, for bash: made by tools/manual.py from what fsr says.
_fsr() {
    local words word=${COMP_WORDS[COMP_CWORD]}
    case $COMP_CWORD:${COMP_WORDS[1]} in
    1:*) words='check order play race watch help -h --help -V --version' ;;
    *:check) words='-h --help' ;;
    *:order) words='--order --small --strict --coherent --budget -h --help' ;;
    *:play) words='-h --help' ;;
    *:race) words='-h --help' ;;
    *:watch) words='--budget -h --help' ;;
    esac
    COMPREPLY=($(compgen -W "$words" -- "$word"))
    [ "$COMP_CWORD" = 1 ] || [ "${word#-}" != "$word" ] || COMPREPLY+=($(compgen -f -- "$word"))
}
complete -o filenames -F _fsr fsr
