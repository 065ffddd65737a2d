#compdef @name
@function() {
    local context state state_descr line
    typeset -A opt_args
    local -a commands
    commands=(
@commands    )
    _arguments -C \
@options        '1:command:->command' \
        '*::option:->option' && return
    case $state in
    command) _describe command commands ;;
    option)
        case $words[1] in
@cases        esac
        ;;
    esac
}
@function "$@@"
