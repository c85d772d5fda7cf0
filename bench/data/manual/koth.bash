# The completion of koth for bash, which reads it with `source`. bench/manual makes this file from the help texts of the program.

# Sets what a command takes, or koth itself if none is named: its options, those with a value, and what completes each argument and all further ones.
_koth_takes() {
    options='' valued='' kinds=() further=''
    case $1 in
@TAKES@
    esac
}

# Sets what completes the value of an option of a command.
_koth_value() {
    kind=''
    case $1 in
@VALUES@
    esac
}

# Reads the words before the one that is completed: `owner` is the option whose value that is, `count` how many arguments the command has by then.
_koth_read() {
    local at word
    for ((at = 1; at < COMP_CWORD; at++)); do
        word=${COMP_WORDS[at]}
        if [[ $word == *[\<\>] || -z $ended && " $valued " == *" $word "* ]]; then
            [[ ${COMP_WORDS[at + 1]} == '=' ]] && ((at++))
            ((++at < COMP_CWORD)) || owner=$word
        elif [[ -z $ended && $word == -- ]]; then
            ended=yes
        elif [[ -z $ended && $word == -?* ]]; then
            continue
        elif [[ -z $command ]]; then
            command=$word
            _koth_takes "$command"
        else
            ((count++))
        fi
    done
}

_koth() {
    local names='@NAMES@'
    local word=${COMP_WORDS[COMP_CWORD]} options valued kinds further kind command='' owner='' ended='' count=0
    [[ $word == '=' ]] && word=''
    _koth_takes ''
    _koth_read
    if [[ -n $owner ]]; then
        _koth_value "$command $owner"
    elif [[ -z $ended && $word == -* ]]; then
        kind=$options
    else
        kind=${kinds[count]:-$further}
    fi
    COMPREPLY=()
    case $kind in
        source) mapfile -t COMPREPLY < <(compgen -f -X '!*.red' -- "$word"; compgen -d -- "$word") ;;
        command) mapfile -t COMPREPLY < <(compgen -W "$names" -- "$word") ;;
        file) ;;
        *) mapfile -t COMPREPLY < <(compgen -W "$kind" -- "$word") ;;
    esac
    if [[ $kind == source || $kind == file ]]; then
        ((${#COMPREPLY[@]})) || mapfile -t COMPREPLY < <(compgen -f -- "$word")
        compopt -o filenames 2>/dev/null
    fi
}

complete -F _koth koth
