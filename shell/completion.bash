# Completion of aoe for bash: commands, then the actions, options and files of the command, as its --help has them.
_aoe() {
    local word=${COMP_WORDS[COMP_CWORD]} before=${COMP_WORDS[COMP_CWORD - 1]} command=${COMP_WORDS[1]} words
    COMPREPLY=()
    if [ "$COMP_CWORD" -eq 1 ]; then
        words=$("${COMP_WORDS[0]}" --help 2>/dev/null | awk '$1 == "aoe" { print $2 }')
        mapfile -t COMPREPLY < <(compgen -W "$words --help --version" -- "$word")
        return
    fi
    case $before in
        --tap | --one-tap | --two-tap | --output | --input | --socket) # shell/make: options with a file
            mapfile -t COMPREPLY < <(compgen -f -- "$word")
            return
            ;;
        --durable | --lead-other | --check | --anyway | --verify | --no-flush | --progress | --long | --sectors | --read-only | --once) ;; # shell/make: options without a value
        --*) return ;;
    esac
    # The words of the synopsis that are no names of values: options and actions.
    words=$("${COMP_WORDS[0]}" "$command" --help 2>/dev/null | grep '^aoe ' | tr -d '[]()' | tr ' |' '\n\n' | grep -x -e '--[a-z-]*' -e '[a-z]*' -e '[a-z]*=MAC')
    words=$(printf '%s\n' "$words" | sed -e '/^aoe$/d' -e "/^$command\$/d" -e 's/=MAC/=/')
    [ "$command" = switch ] && words="$words access: trunk:"
    if [ -z "$word" ] || [ "${word:0:1}" != - ]; then
        case $command in
            answer | capture | serve | mirror | audit | keep) mapfile -t COMPREPLY < <(compgen -f -- "$word") ;; # shell/make: commands with files
        esac
    fi
    mapfile -t -O "${#COMPREPLY[@]}" COMPREPLY < <(compgen -W "$words --help" -- "$word")
}
complete -o filenames -F _aoe aoe
complete -o filenames -F _aoe ./aoe
