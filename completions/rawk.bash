# The command line of rawk, completed by bash. tools/examples holds the options against `rawk --help`.
_rawk() {
    local options='-F -v -f --debug --steps --history -h --help -V --version'
    COMPREPLY=()
    case $3 in
        -F | -v | --steps | --history) return ;;
        -f | --debug) mapfile -t COMPREPLY < <(compgen -f -- "$2") ;;
        *)
            if [[ $2 == -* ]]; then
                mapfile -t COMPREPLY < <(compgen -W "$options" -- "$2")
            else
                mapfile -t COMPREPLY < <(compgen -f -- "$2")
            fi
            ;;
    esac
}
complete -o filenames -F _rawk rawk
