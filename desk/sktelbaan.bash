# Completion of sktelbaan for bash. Written by desk/tests/documents.rs from the table of commands.
_sktelbaan() {
    local word=${COMP_WORDS[COMP_CWORD]} before=${COMP_WORDS[COMP_CWORD - 1]} options=
    COMPREPLY=()
    if [ "$COMP_CWORD" -eq 1 ]; then
        mapfile -t COMPREPLY < <(compgen -W 'check list show colour recipe steps run read spell ink block new explain -h --help --version' -- "$word")
        return
    fi
    case $before in
    --house | -o) return ;;
    esac
    case ${COMP_WORDS[1]} in
    check) options='--plain' ;;
    list) options='--plain' ;;
    show) options='--all --house' ;;
    colour) options='--strict --plain --house' ;;
    recipe) options='--binary --c --plain --house' ;;
    steps) options='--binary --c --plain' ;;
    run) options='--strict --plain' ;;
    spell) options='--house' ;;
    esac
    case $word in
    -*) mapfile -t COMPREPLY < <(compgen -W "$options -o --json -h --help --version" -- "$word") ;;
    esac
}
complete -o default -F _sktelbaan sktelbaan
