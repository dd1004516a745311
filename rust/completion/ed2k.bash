# Completion of the command ed2k for bash: subcommands, options, kinds, links and types; else names of files.

_ed2k() {
    local current=${COMP_WORDS[COMP_CWORD]} before=${COMP_WORDS[COMP_CWORD - 1]}
    local subcommands='read show why gaps mark search save merge help'
    local links='server-link client-link udp'
    local kinds="$links known.met server.met part.met query tags"
    COMPREPLY=()

    # bash takes '=' for a word of its own: --type=Doc is three words.
    if [[ $current == '=' ]]; then
        current=''
    elif [[ $before == '=' ]]; then
        before=${COMP_WORDS[COMP_CWORD - 2]}
    fi

    if ((COMP_CWORD == 1)); then
        COMPREPLY=($(compgen -W "$subcommands --help --version" -- "$current"))
        return
    fi
    case $before in
    --type)
        COMPREPLY=($(compgen -W 'Audio Video Image Pro Doc Col' -- "$current"))
        return
        ;;
    --name | --min | --max | --wait)
        compopt +o default 2> /dev/null || : # no file is meant
        return
        ;;
    --opened | --new)
        return
        ;;
    esac

    # Operands so far; after -- there are no options any more.
    local index operands=0 options=yes
    for ((index = 2; index < COMP_CWORD; index++)); do
        case ${COMP_WORDS[index]} in
        --) options=no ;;
        --*) ;;
        *) operands=$((operands + 1)) ;;
        esac
    done

    if [[ $current == -* && $options == yes ]]; then
        local offered='--help'
        case ${COMP_WORDS[1]} in
        show | why | gaps) offered+=' --json' ;;
        mark) offered+=' --dry-run --wait' ;;
        search) offered+=' --name --type --min --max' ;;
        save) offered+=' --strict --wait --opened --new' ;;
        merge) offered+=' --json --wait --opened' ;;
        esac
        COMPREPLY=($(compgen -W "$offered" -- "$current"))
        return
    fi
    case ${COMP_WORDS[1]}:$operands in
    help:0) COMPREPLY=($(compgen -W "$subcommands" -- "$current")) ;;
    read:0 | show:0) COMPREPLY=($(compgen -W "$kinds" -- "$current")) ;;
    why:0) COMPREPLY=($(compgen -W "$links" -- "$current")) ;;
    esac
}

complete -o default -F _ed2k ed2k
