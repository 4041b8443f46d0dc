# Completion of dvdisaster_rs01 for bash.
_dvdisaster_rs01() {
    local word=${COMP_WORDS[COMP_CWORD]} before=${COMP_WORDS[COMP_CWORD-1]} options=""
    if [ "$COMP_CWORD" -eq 1 ]; then
        mapfile -t COMPREPLY < <(compgen -W "create fix verify scan read demo --help --version" -- "$word")
        return
    fi
    case $before in
        --parity) mapfile -t COMPREPLY < <(compgen -W "normal high 8 16 32 64 100" -- "$word"); return ;;
        --workers | --jump | --tries) COMPREPLY=(); return ;;
        --drive) mapfile -t COMPREPLY < <(compgen -f -- "${word:-/dev/sr}"); return ;;
    esac
    case ${COMP_WORDS[1]} in
        create) options="--parity --workers" ;;
        fix) options="--workers --cut" ;;
        scan) options="--drive" ;;
        read) options="--drive --adaptive --jump --tries --workers" ;;
        demo) COMPREPLY=(); return ;;
    esac
    case $word in
        -*) mapfile -t COMPREPLY < <(compgen -W "$options" -- "$word") ;;
        *) mapfile -t COMPREPLY < <(compgen -f -- "$word") ;;
    esac
}
complete -o filenames -F _dvdisaster_rs01 dvdisaster_rs01
