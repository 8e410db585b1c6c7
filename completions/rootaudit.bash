# Made by host/run-docs.
_rootaudit() {
    local numbers='--expect -j' folders='-r' word
    local current=${COMP_WORDS[COMP_CWORD]} before=${COMP_WORDS[COMP_CWORD-1]}
    COMPREPLY=()
    # After `--` there are files alone.
    for word in "${COMP_WORDS[@]:1:COMP_CWORD-1}"; do
        [ "$word" != -- ] || return
    done
    case " $numbers " in
    *" $before "*)
        compopt +o default 2>/dev/null
        return
        ;;
    esac
    case " $folders " in
    *" $before "*)
        compopt +o default -o dirnames 2>/dev/null
        return
        ;;
    esac
    case $current in
    -*) mapfile -t COMPREPLY < <(compgen -W '--rows --json --quiet --read --expect --html -j -r --files0-from -h --help --version' -- "$current") ;;
    esac
}
complete -o default -F _rootaudit rootaudit
