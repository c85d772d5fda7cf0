# The completion of koth for bash, which reads it with `source`. bench/manual makes this file from the help texts of the program.

# Sets what a command takes, or koth itself if none is named: its options, those with a value, and what completes each argument and all further ones.
_koth_takes() {
    options='' valued='' kinds=() further=''
    case $1 in
        '')
            options='-h --help -V --version'
            kinds=('command')
            ;;
        'asm')
            options='--name --define --listing -h --help --like --preset -s --core -p --processes -l --length -d --distance -c --cycles -r --rounds --read-limit --write-limit --seed --capacity'
            valued='--name --define --like --preset -s --core -p --processes -l --length -d --distance -c --cycles -r --rounds --read-limit --write-limit --seed --capacity'
            kinds=('source')
            ;;
        'check')
            options='--name --define --format --warnings --deny -h --help --like --preset -s --core -p --processes -l --length -d --distance -c --cycles -r --rounds --read-limit --write-limit --seed --capacity'
            valued='--name --define --format --deny --like --preset -s --core -p --processes -l --length -d --distance -c --cycles -r --rounds --read-limit --write-limit --seed --capacity'
            kinds=('source')
            further='source'
            ;;
        'fight')
            options='--name --define --both --each --many --plain --table --format -h --help --like --preset -s --core -p --processes -l --length -d --distance -c --cycles -r --rounds --read-limit --write-limit --seed --capacity'
            valued='--name --define --format --like --preset -s --core -p --processes -l --length -d --distance -c --cycles -r --rounds --read-limit --write-limit --seed --capacity'
            kinds=('source' 'source')
            further='source'
            ;;
        'create')
            options='--overwrite --draw-seed -h --help --like --preset -s --core -p --processes -l --length -d --distance -c --cycles -r --rounds --read-limit --write-limit --seed --capacity'
            valued='--like --preset -s --core -p --processes -l --length -d --distance -c --cycles -r --rounds --read-limit --write-limit --seed --capacity'
            kinds=('file')
            ;;
        'submit')
            options='--wait --to --timeout --pipe --name --plain --table --format -h --help --like --preset -s --core -p --processes -l --length -d --distance -c --cycles -r --rounds --read-limit --write-limit --seed --capacity'
            valued='--wait --to --timeout --name --format --like --preset -s --core -p --processes -l --length -d --distance -c --cycles -r --rounds --read-limit --write-limit --seed --capacity'
            kinds=('source' 'source')
            ;;
        'show')
            options='--to --timeout --matches --settings --with-seed --entry --plain --table --format -h --help'
            valued='--to --timeout --entry --format'
            kinds=('file')
            ;;
        'serve')
            options='--port --peers --peers-per-address --steps --listen --connections --http --host --replays --title --peers-at --quiet --log-format --create -h --help --preset -s --core -p --processes -l --length -d --distance -c --cycles -r --rounds --read-limit --write-limit --seed --capacity'
            valued='--port --peers --peers-per-address --steps --listen --connections --http --host --title --peers-at --log-format --preset -s --core -p --processes -l --length -d --distance -c --cycles -r --rounds --read-limit --write-limit --seed --capacity'
            kinds=('file')
            ;;
        'session')
            options='--wait --steps -h --help'
            valued='--wait --steps'
            kinds=('file')
            ;;
        'audit')
            options='--format -h --help'
            valued='--format'
            kinds=('file')
            ;;
        'migrate')
            options='-h --help'
            kinds=('file' 'file')
            ;;
        'page')
            options='-h --help'
            kinds=('file')
            ;;
        'replay')
            options='--name --define -o --output --round --lost --won --tied -h --help --like --preset -s --core -p --processes -l --length -d --distance -c --cycles -r --rounds --read-limit --write-limit --seed --capacity'
            valued='--name --define -o --output --round --like --preset -s --core -p --processes -l --length -d --distance -c --cycles -r --rounds --read-limit --write-limit --seed --capacity'
            kinds=('source' 'source')
            ;;
        'trace')
            options='--name --define --round --lost --won --tied --last --format -h --help --like --preset -s --core -p --processes -l --length -d --distance -c --cycles -r --rounds --read-limit --write-limit --seed --capacity'
            valued='--name --define --round --last --format --like --preset -s --core -p --processes -l --length -d --distance -c --cycles -r --rounds --read-limit --write-limit --seed --capacity'
            kinds=('source' 'source')
            ;;
        'try')
            options='--name --define --plain --table --format -h --help'
            valued='--name --define --format'
            kinds=('file' 'source')
            ;;
        'copy')
            options='--audit -h --help'
            kinds=('file' 'file')
            ;;
        'reseed')
            options='--seed -h --help'
            valued='--seed'
            kinds=('file' 'file')
            ;;
        'rank')
            options='--name --both --matches --part --join --plain --table --format -h --help --like --preset -s --core -p --processes -l --length -d --distance -c --cycles -r --rounds --read-limit --write-limit --seed --capacity'
            valued='--name --part --format --like --preset -s --core -p --processes -l --length -d --distance -c --cycles -r --rounds --read-limit --write-limit --seed --capacity'
            kinds=('source')
            further='source'
            ;;
        'explain')
            options='-h --help'
            kinds=('file')
            ;;
        'help')
            kinds=('command')
            further='command'
            ;;
    esac
}

# Sets what completes the value of an option of a command.
_koth_value() {
    kind=''
    case $1 in
        'asm --like') kind='file' ;;
        'asm --preset') kind='94nop tiny nano' ;;
        'check --format') kind='text json' ;;
        'check --deny') kind='warnings' ;;
        'check --like') kind='file' ;;
        'check --preset') kind='94nop tiny nano' ;;
        'fight --format') kind='text json' ;;
        'fight --like') kind='file' ;;
        'fight --preset') kind='94nop tiny nano' ;;
        'create --like') kind='file' ;;
        'create --preset') kind='94nop tiny nano' ;;
        'submit --format') kind='text json' ;;
        'submit --like') kind='file' ;;
        'submit --preset') kind='94nop tiny nano' ;;
        'show --format') kind='text json' ;;
        'serve --log-format') kind='text json' ;;
        'serve --preset') kind='94nop tiny nano' ;;
        'audit --format') kind='text json' ;;
        'replay -o') kind='file' ;;
        'replay --output') kind='file' ;;
        'replay --like') kind='file' ;;
        'replay --preset') kind='94nop tiny nano' ;;
        'trace --format') kind='text json' ;;
        'trace --like') kind='file' ;;
        'trace --preset') kind='94nop tiny nano' ;;
        'try --format') kind='text json' ;;
        'rank --format') kind='text json' ;;
        'rank --like') kind='file' ;;
        'rank --preset') kind='94nop tiny nano' ;;
        *[\<\>]) kind='file' ;;
    esac
}

# Reads the words before the one that is completed: `owner` is the option whose value that is, `count` how many arguments the command has by then.
_koth_read() {
    local at word
    for ((at = 1; at < COMP_CWORD; at++)); do
        word=${COMP_WORDS[at]}
        if [[ $word == *[\<\>] || -z $ended && " $valued " == *" $word "* ]]; then
            [[ ${COMP_WORDS[at + 1]} == '=' ]] && ((at++))
            ((++at < COMP_CWORD)) || owner=$word
        elif [[ -z $ended && $word == -- ]]; then
            ended=yes
        elif [[ -z $ended && $word == -?* ]]; then
            continue
        elif [[ -z $command ]]; then
            command=$word
            _koth_takes "$command"
        else
            ((count++))
        fi
    done
}

_koth() {
    local names='asm check fight create submit show serve session audit migrate page replay trace try copy reseed rank explain help'
    local word=${COMP_WORDS[COMP_CWORD]} options valued kinds further kind command='' owner='' ended='' count=0
    [[ $word == '=' ]] && word=''
    _koth_takes ''
    _koth_read
    if [[ -n $owner ]]; then
        _koth_value "$command $owner"
    elif [[ -z $ended && $word == -* ]]; then
        kind=$options
    else
        kind=${kinds[count]:-$further}
    fi
    COMPREPLY=()
    case $kind in
        source) mapfile -t COMPREPLY < <(compgen -f -X '!*.red' -- "$word"; compgen -d -- "$word") ;;
        command) mapfile -t COMPREPLY < <(compgen -W "$names" -- "$word") ;;
        file) ;;
        *) mapfile -t COMPREPLY < <(compgen -W "$kind" -- "$word") ;;
    esac
    if [[ $kind == source || $kind == file ]]; then
        ((${#COMPREPLY[@]})) || mapfile -t COMPREPLY < <(compgen -f -- "$word")
        compopt -o filenames 2>/dev/null
    fi
}

complete -F _koth koth
