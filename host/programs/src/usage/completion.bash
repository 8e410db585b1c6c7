# Made by host/run-docs.
_@name@() {
    local numbers='@numbers@' folders='@folders@' word
    local current=${COMP_WORDS[COMP_CWORD]} before=${COMP_WORDS[COMP_CWORD-1]}
    COMPREPLY=()
    # After `--` there are files alone.
    for word in "${COMP_WORDS[@]:1:COMP_CWORD-1}"; do
        [ "$word" != -- ] || return
    done
    case " $numbers " in
    *" $before "*)
        compopt +o default 2>/dev/null
        return
        ;;
    esac
    case " $folders " in
    *" $before "*)
        compopt +o default -o dirnames 2>/dev/null
        return
        ;;
    esac
    case $current in
    -*) mapfile -t COMPREPLY < <(compgen -W '@flags@' -- "$current") ;;
    esac
}
complete -o default -F _@name@ @name@
