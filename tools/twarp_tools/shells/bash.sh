# bash completion for @name
@function() {
    local word=${COMP_WORDS[COMP_CWORD]} command='' words='' place
    COMPREPLY=()
    for ((place = 1; place < COMP_CWORD; place++)); do
        case ${COMP_WORDS[place]} in
        @commands) command=${COMP_WORDS[place]} && break ;;
        esac
    done
    case ${COMP_WORDS[COMP_CWORD - 1]} in
@numbers    # After an arrow bash completes the names of files.
    '<' | '>' | '>>' | '2>') return ;;
    esac
    case $command in
    '') words='@words' ;;
@cases    esac
    mapfile -t COMPREPLY < <(compgen -W "$words" -- "$word")
}
complete -o default -F @function @name
