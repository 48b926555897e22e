# bash completion of oaut: commands, their options, and files.
_oaut() {
    local word=${COMP_WORDS[COMP_CWORD]} before=${COMP_WORDS[COMP_CWORD - 1]} command=${COMP_WORDS[1]} options=
    if ((COMP_CWORD == 1)); then
        COMPREPLY=($(compgen -W "check play serve format upgrade dump --help --version" -- "$word"))
        return
    fi
    case $before in --group | --bank) COMPREPLY=() && return ;; esac
    case $command in
    check) options="--where --help" ;;
    play) options="--hex --shared --help" ;;
    serve) options="--group --hex --shared --help" ;;
    format | upgrade) options="--bank --help" ;;
    dump) options="--library --help" ;;
    esac
    case $word in
    -*) COMPREPLY=($(compgen -W "$options" -- "$word")) ;;
    *) COMPREPLY=($(compgen -f -- "$word")) ;;
    esac
}
complete -o filenames -F _oaut oaut
