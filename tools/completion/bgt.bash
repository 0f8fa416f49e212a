# Completion of bgt for bash.
_bgt() {
    local word=${COMP_WORDS[COMP_CWORD]} call=${COMP_WORDS[1]}
    COMPREPLY=()
    if [ "$COMP_CWORD" = 1 ]; then
        mapfile -t COMPREPLY < <(compgen -W 'check load explain state history point export trial rings' -- "$word")
    elif [ "$COMP_CWORD" = 2 ]; then
        case $call in
            load | explain | state | history | point | export) mapfile -t COMPREPLY < <(compgen -f -- "$word") ;;
        esac
    fi
}
complete -o filenames -F _bgt bgt
