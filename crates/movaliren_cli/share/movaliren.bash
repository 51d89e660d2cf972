# Completions of movaliren for bash.
_movaliren() {
    local word=${COMP_WORDS[COMP_CWORD]} before=${COMP_WORDS[COMP_CWORD - 1]} job=${COMP_WORDS[1]} options
    COMPREPLY=()
    if [ "$COMP_CWORD" -eq 1 ]; then
        mapfile -t COMPREPLY < <(compgen -W "now unix read help --help --version" -- "$word")
        return
    fi
    case $before in
        --zone | -z | --from-zone)
            mapfile -t COMPREPLY < <(
                cd "${TZDIR:-/usr/share/zoneinfo}" 2>/dev/null &&
                    compgen -W "$(find . -type f ! -name '*.*' ! -path './right/*' ! -path './posix/*' -printf '%P\n')" -- "$word"
            )
            return
            ;;
        --from | -f)
            mapfile -t COMPREPLY < <(compgen -W "rfc3339 clf syslog log4j rfc2822 iso8601" -- "$word")
            return
            ;;
        --offset | --decimals | --year | --years | --digits | -d | --after | -a | --longest) return ;;
    esac
    options="--utc --offset --zone --local --decimals --longest --quiet --help"
    case $job in
        unix) options+=" --after --all --json --digits --years --seconds --milliseconds --microseconds --nanoseconds" ;;
        read) options+=" --from --from-zone --year --json" ;;
    esac
    if [[ $word == -* ]]; then
        mapfile -t COMPREPLY < <(compgen -W "$options" -- "$word")
    elif [ "$job" = help ]; then
        mapfile -t COMPREPLY < <(compgen -W "now unix read" -- "$word")
    elif [ "$job" = read ]; then
        mapfile -t COMPREPLY < <(compgen -W "rfc3339 rfc2822 http iso8601 stamp unix" -f -- "$word")
    elif [ "$job" = unix ]; then
        mapfile -t COMPREPLY < <(compgen -W "rfc3339 rfc2822 http iso8601 stamp" -f -- "$word")
    else
        mapfile -t COMPREPLY < <(compgen -W "rfc3339 rfc2822 http iso8601 stamp" -- "$word")
    fi
}
complete -o filenames -F _movaliren movaliren
