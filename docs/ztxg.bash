# Completion of ztxg in bash: source this file.
_ztxg() {
    local word=${COMP_WORDS[COMP_CWORD]} command= index
    for ((index = 1; index < COMP_CWORD; index++)); do
        case ${COMP_WORDS[index]} in
            create|put|get|ls|df|rm|copy|show|check|labels|load|serve|bench|script) command=${COMP_WORDS[index]}; break ;;
        esac
    done
    if [[ -z $command ]]; then
        COMPREPLY=($(compgen -W "create put get ls df rm copy show check labels load serve bench script help -q --quiet -v --verbose --wait -h --help -V --version" -- "$word"))
        return
    fi
    local options="-q --quiet -v --verbose --wait -h --help"
    case $command in
        create) options+=" --size --name --guid --new --force --moment" ;;
        put) options+=" --offset --moment" ;;
        get) options+=" --offset --length --whole" ;;
        ls) options+=" -l --long --json --whole" ;;
        df) options="-q --quiet -v --verbose --wait --help -h --human-readable" ;;
        check) options+=" --all --json" ;;
        show) options+=" --fast --json" ;;
        labels) options+=" --json" ;;
        rm) options+=" --moment" ;;
        copy) options+=" --skip-damaged --size --guid" ;;
        load) options+=" --workers --ops --seed --dirty --cache --moment" ;;
        serve) options+=" --dirty --cache --moment" ;;
        bench) options+=" --size --workers --bytes --seconds --dirty --durable" ;;
        script) options+=" --file --moment --stop --sync" ;;
    esac
    if [[ $word == -* ]]; then
        COMPREPLY=($(compgen -W "$options" -- "$word"))
    else
        mapfile -t COMPREPLY < <(compgen -f -- "$word")
    fi
}
complete -o filenames -F _ztxg ztxg
