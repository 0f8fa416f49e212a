# Completion of bgt-geo for bash.
_bgt_geo() {
    local word=${COMP_WORDS[COMP_CWORD]} before=${COMP_WORDS[COMP_CWORD - 1]} call=${COMP_WORDS[1]} words=
    local drawn='--holder --moment --area --mapping --nodes --round --assume-rd --output --help'
    COMPREPLY=()
    if [ "$COMP_CWORD" = 1 ]; then
        mapfile -t COMPREPLY < <(compgen -W 'messages changes layers why picture page --help' -- "$word")
        return
    fi
    case $before in
        --holder | --moment | --end | --width | --format) return ;;
        --picture) mapfile -t COMPREPLY < <(compgen -d -- "$word"); return ;;
    esac
    case $call in
        messages) words=$drawn ;;
        changes) words="$drawn --end" ;;
        layers) words='--moment --output --format --help' ;;
        why) words='--geojson --picture --register --help' ;;
        picture) words='--moment --output --holder --width --help' ;;
        page) words='--output --help' ;;
    esac
    case $word in
        -*) mapfile -t COMPREPLY < <(compgen -W "$words" -- "$word") ;;
        *) mapfile -t COMPREPLY < <(compgen -f -- "$word") ;;
    esac
}
complete -o filenames -F _bgt_geo bgt-geo
