# Completion of dexkit for bash.

_dexkit() {
    local word=${COMP_WORDS[COMP_CWORD]} before=${COMP_WORDS[COMP_CWORD - 1]}
    local commands='check merge normalise digest conflicts diff count dump repair help'
    COMPREPLY=()
    if ((COMP_CWORD == 1)); then
        mapfile -t COMPREPLY < <(compgen -W "$commands --help --verbose --version" -- "$word")
        return
    fi
    case $before in
        --by)
            mapfile -t COMPREPLY < <(compgen -W package -- "$word")
            return
            ;;
        --class | --fan | --max-types | --max-protos | --max-fields | --max-methods | --max-weight) return ;;
    esac
    case ${COMP_WORDS[1]} in
        help)
            mapfile -t COMPREPLY < <(compgen -W "$commands" -- "$word")
            return
            ;;
        -*) return ;;
    esac
    if [[ $word == -?* ]]; then
        local options='--help --verbose'
        case ${COMP_WORDS[1]} in
            check) options+=' --keep-going -z --null' ;;
            digest | conflicts) options+=' --strip -z --null' ;;
            diff) options+=' --strip -z --null --from --to' ;;
            count) options+=' --each --by -z --null' ;;
            dump) options+=' --all --class' ;;
            normalise | normalize | repair) options+=' --atomic' ;;
            merge) options+=' -o --out --atomic --strip -z --null --fan --max-types --max-protos --max-fields --max-methods --max-weight' ;;
        esac
        mapfile -t COMPREPLY < <(compgen -W "$options" -- "$word")
        return
    fi
    # After `@` comes the name of a list of arguments.
    if [[ $word == @* ]]; then
        mapfile -t COMPREPLY < <(compgen -f -P @ -- "${word#@}")
        return
    fi
    mapfile -t COMPREPLY < <(compgen -d -- "$word"; compgen -f -X '!*.dex' -- "$word")
}

complete -o filenames -F _dexkit dexkit
