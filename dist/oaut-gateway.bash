# bash completion of oaut-gateway: its commands, options, and files.
_oaut_gateway() {
    local word=${COMP_WORDS[COMP_CWORD]} before=${COMP_WORDS[COMP_CWORD - 1]} command=${COMP_WORDS[1]}
    local limits="--clients --watchers --memory --idle --hold --stalled --report --slow --allow-user --allow-group --allow-read-user --allow-read-group"
    local options="--listen --listen-hex --alone --listen-read --watch --metrics --control --view --mode --program $limits --help --version"
    case $before in
    --allow-user | --allow-read-user) COMPREPLY=($(compgen -u -- "$word")) && return ;;
    --allow-group | --allow-read-group) COMPREPLY=($(compgen -g -- "$word")) && return ;;
    --clients | --watchers | --memory | --idle | --hold | --stalled | --report | --slow | --mode | --view) COMPREPLY=() && return ;;
    esac
    if ((COMP_CWORD == 1)) && [[ $word != -* ]]; then
        COMPREPLY=($(compgen -W "backup status measure tail reload probe" -- "$word") $(compgen -f -- "$word"))
        return
    fi
    case $command in
    backup | status | measure | probe) options= ;;
    tail) options="--client --opcode --code --refused --slow --count" ;;
    reload) options=$limits ;;
    esac
    case $word in
    -*) COMPREPLY=($(compgen -W "$options" -- "$word")) ;;
    *) COMPREPLY=($(compgen -f -- "$word")) ;;
    esac
}
complete -o filenames -F _oaut_gateway oaut-gateway
