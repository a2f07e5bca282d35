# Completion of relayd's command line for bash. `python3 tools/command_pages.py` makes it from the command line's tables.

# Files that begin so; bash quotes them, and writes a slash after a folder.
_relayd_files() {
    compopt -o filenames 2>/dev/null
    mapfile -t COMPREPLY < <(compgen -f -- "$1")
}

_relayd() {
    local word=${COMP_WORDS[COMP_CWORD]} before=${COMP_WORDS[COMP_CWORD-1]} command=${COMP_WORDS[1]}
    COMPREPLY=()
    # bash takes the `=` of --config=FILE as a word of its own.
    if [ "$word" = = ]; then
        word=
    elif [ "$before" = = ]; then
        before=${COMP_WORDS[COMP_CWORD-2]}
    fi
    if [ "$COMP_CWORD" -eq 1 ]; then
        mapfile -t COMPREPLY < <(compgen -W "pass check route replay run report watch stop restart reload help -h --help -V --version" -- "$word")
        return
    fi
    case $before in
        --moment|--longest-name|--admin|--idle|--drain|--spool-size|--status|--status-interface|--dest|--seconds)
            return ;;
        --config|--rules|--rewrite|--spool|--admin-key|--names|--lines|--record)
            _relayd_files "$word"
            return ;;
        --senders)
            mapfile -t COMPREPLY < <(compgen -W "1 2 3 4 5 6 7 8" -- "$word")
            return ;;
        --line-receivers)
            mapfile -t COMPREPLY < <(compgen -W "1 2 3 4 5 6" -- "$word")
            return ;;
        --log-format)
            mapfile -t COMPREPLY < <(compgen -W "text timed json" -- "$word")
            return ;;
    esac
    local options
    case $command in
        pass) options="--explain --strict --pickle --moment" ;;
        check) options="--config --rules --rewrite --longest-name --spool --explain --strict --json" ;;
        route) options="--config --rules --rewrite --longest-name --admin --admin-key --names --explain --strict --json" ;;
        replay) options="--config --rules --rewrite --longest-name --lines --text --explain --strict" ;;
        run) options="--config --rules --rewrite --longest-name --admin --admin-key --senders --line-receivers --idle --drain --spool --spool-size --status --status-interface --log --log-format --record --explain" ;;
        report) options="--admin --admin-key --json" ;;
        watch) options="--admin --admin-key --dest --names --lines --seconds --json" ;;
        stop) options="--admin --admin-key --wait" ;;
        restart) options="--config --rules --rewrite --longest-name --explain --admin --admin-key" ;;
        reload) options="--explain --admin --admin-key" ;;
        help)
            mapfile -t COMPREPLY < <(compgen -W "pass check route replay run report watch stop restart reload help" -- "$word")
            return ;;
        *) return ;;
    esac
    if [[ $command == @(replay) && $word != -* ]]; then
        _relayd_files "$word"
    else
        mapfile -t COMPREPLY < <(compgen -W "$options -h --help" -- "$word")
    fi
}

# The options of `relayd run`.
_relayd_supervised() {
    COMP_WORDS=(relayd run "${COMP_WORDS[@]:1}")
    COMP_CWORD=$((COMP_CWORD + 1))
    _relayd
}
complete -F _relayd relayd
complete -F _relayd_supervised relayd-supervised
