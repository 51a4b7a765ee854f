# Completion of editlens and edithub for bash: the commands, the tools, and files behind a redirection.
_editlens() {
    local word=${COMP_WORDS[COMP_CWORD]} place=1 commands
    local hub="init apply show verify pack undo add" verbs="history compact back backup restore change-lens"
    case ${COMP_WORDS[0]##*/} in
        edithub) commands="$hub --help --version" ;;
        *)
            commands="run check init apply show verify pack gen hub link undo import --help --version hub-store $verbs"
            commands="$commands $("${COMP_WORDS[0]}" --help 2>/dev/null | sed -n 's/^  editlens \([a-z][a-z-]*\) .*/\1/p')"
            ;;
    esac
    case ${COMP_WORDS[1]} in
        hub-store) commands=$hub place=2 ;;
        store) commands="$verbs check import" place=2 ;;
    esac
    if [ "$COMP_CWORD" -gt "$place" ] && [[ $word == -* ]]; then
        # The options of a tool, or of a verb of store, as its help lists them.
        commands=$("${COMP_WORDS[@]:0:place+1}" --help 2>/dev/null | grep -o -e '--[a-z][a-z-]*')
        mapfile -t COMPREPLY < <(compgen -W "$commands" -- "$word" | sort -u)
    elif [ "$COMP_CWORD" -eq "$place" ]; then
        mapfile -t COMPREPLY < <(compgen -W "$commands" -- "$word" | sort -u)
    fi
}
complete -o default -F _editlens editlens edithub
