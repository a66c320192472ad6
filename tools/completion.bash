# Completion of xkbrules for bash: commands, options, files. For the value of an option it has nothing to offer.
_xkbrules()
{
    local word=${COMP_WORDS[COMP_CWORD]} before=${COMP_WORDS[COMP_CWORD - 1]} command= i words
    local profile='-m --model -l --layout -v --variant -o --option'

    COMPREPLY=()
    for ((i = 1; i < COMP_CWORD; i++)); do
        case ${COMP_WORDS[i]} in
            check | resolve | card | show-card) command=${COMP_WORDS[i]}; break ;;
        esac
    done
    case $before in
        -m | --model | -l | --layout | -v | --variant | -o | --option | --options | --limit) return ;;
    esac
    case $command in
        check) words='--all --limit --json' ;;
        resolve) words="$profile --keymap --json" ;;
        card) words=$profile ;;
        show-card) words= ;;
        *) words='check resolve card show-card --help --version' ;;
    esac
    if [[ -z $command || $word == -* ]]; then
        COMPREPLY=($(compgen -W "$words" -- "$word"))
    else
        compopt -o filenames 2> /dev/null
        mapfile -t COMPREPLY < <(compgen -f -- "$word")
    fi
}
complete -F _xkbrules xkbrules
