# Completion of r53d and r53ctl for bash, made from their parsers.
_r53d() {
    local word="${COMP_WORDS[COMP_CWORD]}" before="${COMP_WORDS[COMP_CWORD-1]}"
    case "$before" in
        --config|--folder|--program|--socket|--log) mapfile -t COMPREPLY < <(compgen -f -- "$word"); return ;;
    esac
    mapfile -t COMPREPLY < <(compgen -W "-h --help --config --init --folder --program --socket --query-port --tcp-address --tcp-port --report-address --report-port --metrics-port --log --log-most --compact-factor --compact-least --lock-wait --stop-within --restart-most --patience" -- "$word")
}
complete -o filenames -F _r53d r53d

_r53ctl() {
    local word="${COMP_WORDS[COMP_CWORD]}"
    if [ "$COMP_CWORD" -eq 1 ]; then
        mapfile -t COMPREPLY < <(compgen -W "send ask diff log status backup check-tables" -- "$word")
        return
    fi
    case "$word" in
        -*) ;;
        *) mapfile -t COMPREPLY < <(compgen -f -- "$word"); return ;;
    esac
    case "${COMP_WORDS[1]}" in
        send) mapfile -t COMPREPLY < <(compgen -W "-h --help --config --folder --socket --program --quiet" -- "$word") ;;
        ask) mapfile -t COMPREPLY < <(compgen -W "-h --help --config --folder --socket --program --from --subnet --words --sweep --json" -- "$word") ;;
        diff) mapfile -t COMPREPLY < <(compgen -W "-h --help --config --folder --socket --program --zone --format --colour --exit-code" -- "$word") ;;
        log) mapfile -t COMPREPLY < <(compgen -W "-h --help --config --folder --socket --program --undo --lines --last" -- "$word") ;;
        status) mapfile -t COMPREPLY < <(compgen -W "-h --help --config --folder --socket --program --name --watch --json" -- "$word") ;;
        backup) mapfile -t COMPREPLY < <(compgen -W "-h --help --config --folder --socket --program" -- "$word") ;;
        check-tables) mapfile -t COMPREPLY < <(compgen -W "-h --help --config --folder --socket --program" -- "$word") ;;
    esac
}
complete -o filenames -F _r53ctl r53ctl
