# Completions of kob for bash.
_kob() {
    local word=${COMP_WORDS[COMP_CWORD]} task=${COMP_WORDS[1]}
    if [ "$COMP_CWORD" -eq 1 ]; then
        mapfile -t COMPREPLY < <(compgen -W "play export policy topic help --help --version" -- "$word")
    elif [ "$task" = help ]; then
        mapfile -t COMPREPLY < <(compgen -W "play export policy topic scene" -- "$word")
    elif [ "$task" = play ] && [[ $word == -* ]]; then
        mapfile -t COMPREPLY < <(compgen -W "--trace --json --help" -- "$word")
    elif [ "$task" = export ] && [[ $word == -* ]]; then
        mapfile -t COMPREPLY < <(compgen -W "--connect --service --table --help" -- "$word")
    elif [ "$task" = topic ] && [[ $word == -* ]]; then
        mapfile -t COMPREPLY < <(compgen -W "--help" -- "$word")
    elif [ "$task" = policy ] && [[ $word == -* ]]; then
        mapfile -t COMPREPLY < <(compgen -W "--policy --questions --topics --before --after --log --commands --kafka --skip --json --csv --next --help" -- "$word")
    else
        mapfile -t COMPREPLY < <(compgen -f -- "$word")
    fi
}
complete -o filenames -F _kob kob
