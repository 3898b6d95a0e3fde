# bash completion for khal-list

_khal_list() {
    local word=${COMP_WORDS[COMP_CWORD]} before=${COMP_WORDS[COMP_CWORD - 1]}
    local command='' folder='' at words='' placeholders
    COMPREPLY=()
    # Bash takes `--zone=UTC` for three words.
    if [[ $word == '=' ]]; then
        word=''
    elif [[ $before == '=' ]]; then
        before=${COMP_WORDS[COMP_CWORD - 2]}
    fi
    for ((at = 1; at < COMP_CWORD; at++)); do
        case $command:${COMP_WORDS[at - 1]}:${COMP_WORDS[at]} in
        :*:list | :*:at | :*:help) command=${COMP_WORDS[at]} ;;
        *:=:* | *:*:= | *:*:-* | *:--zone:* | *:--zone-file:* | *:--zones:* | *:--limit:* | *:--after:* | *:--*format:*) ;;
        list:* | at:*) folder=${COMP_WORDS[at]} ;;
        esac
    done
    placeholders='{cell} {title} {start-time} {end-time} {start-date} {end-date} {location} {description} {uid} {cancelled}'
    placeholders+=' {start-unix} {end-unix} {token} {url}'
    case $before in
    --zone) words='UTC' ;;
    --zone-file)
        compopt -o filenames 2>/dev/null
        mapfile -t COMPREPLY < <(compgen -f -- "$word")
        return
        ;;
    --zones)
        compopt -o filenames 2>/dev/null
        mapfile -t COMPREPLY < <(compgen -d -- "$word")
        return
        ;;
    --limit | --after) return ;;
    --format) words=$placeholders ;;
    --day-format) words='{name} {date}' ;;
    *)
        case $command:$word in
        list:-*) words='--zone --zone-file --zones --keep-going --limit --after --notstarted --every-day --format --day-format --help' ;;
        at:-*) words='--zone --zone-file --zones --keep-going --help' ;;
        :-*) words='--help --version' ;;
        :*) words='list at help' ;;
        help:*) words='list at' ;;
        *)
            [[ -z $folder ]] || return
            compopt -o filenames 2>/dev/null
            mapfile -t COMPREPLY < <(compgen -d -- "$word")
            return
            ;;
        esac
        ;;
    esac
    mapfile -t COMPREPLY < <(compgen -W "$words" -- "$word")
}

complete -F _khal_list khal-list
