# bash completion of oaut-tools, as `oaut-tools completion` prints it
_oaut_tools() {
    local word=${COMP_WORDS[COMP_CWORD]} path= words= it
    for it in "${COMP_WORDS[@]:1:COMP_CWORD-1}"; do
        case "$path $it" in
        " check") path="$path $it" ;;
        " completion") path="$path $it" ;;
        " decode") path="$path $it" ;;
        " dump") path="$path $it" ;;
        " format") path="$path $it" ;;
        " import") path="$path $it" ;;
        " new") path="$path $it" ;;
        " play") path="$path $it" ;;
        " serve") path="$path $it" ;;
        " store") path="$path $it" ;;
        " store copy") path="$path $it" ;;
        " store dump") path="$path $it" ;;
        " store groups") path="$path $it" ;;
        " store info") path="$path $it" ;;
        " store library") path="$path $it" ;;
        " store restore") path="$path $it" ;;
        " store salvage") path="$path $it" ;;
        " store verify") path="$path $it" ;;
        " stubs") path="$path $it" ;;
        " tail") path="$path $it" ;;
        " talk") path="$path $it" ;;
        " upgrade") path="$path $it" ;;
        " view") path="$path $it" ;;
        esac
    done
    case $path in
    "") words="talk decode stubs new import store view tail completion play serve format upgrade dump check --help --version" ;;
    " check") words="--where --help" ;;
    " completion") words="--help" ;;
    " decode") words="--help --framing" ;;
    " dump") words="--library --help" ;;
    " format") words="--bank --help" ;;
    " import") words="--help --output --double --date --only" ;;
    " new") words="--help" ;;
    " play") words="--hex --shared --help" ;;
    " serve") words="--group --hex --shared --help" ;;
    " store") words="info library groups dump verify copy restore salvage --help" ;;
    " store copy") words="--help --live" ;;
    " store dump") words="--help --live --json" ;;
    " store groups") words="--help --live" ;;
    " store info") words="--help --live --json --objects" ;;
    " store library") words="--help --live" ;;
    " store restore") words="--help --library --bank --program" ;;
    " store salvage") words="--help --library --bank --program" ;;
    " store verify") words="--help --live --json" ;;
    " stubs") words="--help --output --program" ;;
    " tail") words="--help --client --opcode --code --refused --slow --count" ;;
    " talk") words="--help --store --connect --batch --verbose --framing --program" ;;
    " upgrade") words="--bank --help" ;;
    " view") words="--help --connect --listen --anywhere --name --write --metrics --watch --program" ;;
    esac
    if [[ $words == --* && $word != -* ]]; then
        mapfile -t COMPREPLY < <(compgen -f -- "$word")
    else
        COMPREPLY=($(compgen -W "$words" -- "$word"))
    fi
}
complete -o filenames -F _oaut_tools oaut-tools
# the same for `python3 -m oaut`; other arguments of python3 are completed as before
_oaut_python() {
    if [[ ${COMP_WORDS[1]} == -m && ${COMP_WORDS[2]} == oaut ]] && ((COMP_CWORD > 2)); then
        local COMP_WORDS=(oaut-tools "${COMP_WORDS[@]:3}") COMP_CWORD=$((COMP_CWORD - 2))
        _oaut_tools
    elif declare -F _python > /dev/null; then
        _python "$@"
    fi
}
complete -o filenames -o bashdefault -o default -F _oaut_python python3
