# Completes the words of tscache in bash.
_tscache() {
    local word=${COMP_WORDS[COMP_CWORD]} command=${COMP_WORDS[1]-} offered=
    COMPREPLY=()
    if [ "$COMP_CWORD" -eq 1 ]; then
        offered='replay run check version help -h --help -V --version'
    else
        case $command in
        replay | run | check)
            case $word in
            -*) offered='-h --help --' ;;
            *) compopt -o filenames 2>/dev/null ;;
            esac
            [ -n "$offered" ] || mapfile -t COMPREPLY < <(compgen -f -- "$word")
            ;;
        help) offered='replay run check version help' ;;
        esac
    fi
    [ -z "$offered" ] || mapfile -t COMPREPLY < <(compgen -W "$offered" -- "$word")
}
complete -F _tscache tscache
