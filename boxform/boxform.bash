# Completions of boxform for bash; made by 'boxform completions'.
_boxform() {
    local word=${COMP_WORDS[COMP_CWORD]} before=${COMP_WORDS[COMP_CWORD - 1]} command=${COMP_WORDS[1]}
    local commands="new read check sum undo print show diff create-definition destroy-definition insert-element remove-element change-quantifier convert-to-group flatten-group change-group-quantifier add-attribute destroy-attribute add-document add-element destroy-element set-attribute destroy-attribute-row set-text run load help man completions" flags= words= files=yes
    COMPREPLY=()
    if [ "$COMP_CWORD" -eq 1 ]; then
        COMPREPLY=($(compgen -W "$commands --help --version" -- "$word"))
        return
    fi
    case $command in
    new)
        flags=""
        ;;
    read)
        flags=""
        ;;
    check)
        flags=""
        ;;
    sum)
        flags=""
        ;;
    undo)
        flags="--dry-run"
        ;;
    print)
        flags="--document --doctype"
        case $before in
        --document) files= ;;
        esac
        ;;
    show)
        flags="--document --element --json"
        case $before in
        --document) files= ;;
        --element) files= ;;
        esac
        ;;
    diff)
        flags=""
        ;;
    create-definition)
        flags="--name --kind --yes --dry-run"
        case $before in
        --name) files= ;;
        --kind) words="empty pcdata complex" ;;
        esac
        ;;
    destroy-definition)
        flags="--definition --yes --dry-run"
        case $before in
        --definition) files= ;;
        esac
        ;;
    insert-element)
        flags="--owner --place --definition --quantifier --text --yes --dry-run"
        case $before in
        --owner) files= ;;
        --place) files= ;;
        --definition) files= ;;
        --quantifier) words="none qmark star plus" ;;
        --text) files= ;;
        esac
        ;;
    remove-element)
        flags="--owner --place --yes --dry-run"
        case $before in
        --owner) files= ;;
        --place) files= ;;
        esac
        ;;
    change-quantifier)
        flags="--owner --place --quantifier --text --yes --dry-run"
        case $before in
        --owner) files= ;;
        --place) files= ;;
        --quantifier) words="none qmark star plus" ;;
        --text) files= ;;
        esac
        ;;
    convert-to-group)
        flags="--owner --place --count --sort --yes --dry-run"
        case $before in
        --owner) files= ;;
        --place) files= ;;
        --count) files= ;;
        --sort) words="list choice" ;;
        esac
        ;;
    flatten-group)
        flags="--owner --place --yes --dry-run"
        case $before in
        --owner) files= ;;
        --place) files= ;;
        esac
        ;;
    change-group-quantifier)
        flags="--owner --place --quantifier --text --yes --dry-run"
        case $before in
        --owner) files= ;;
        --place) files= ;;
        --quantifier) words="none qmark star plus" ;;
        --text) files= ;;
        esac
        ;;
    add-attribute)
        flags="--owner --name --sort --value --yes --dry-run"
        case $before in
        --owner) files= ;;
        --name) files= ;;
        --sort) words="implied required fixed" ;;
        --value) files= ;;
        esac
        ;;
    destroy-attribute)
        flags="--attribute --yes --dry-run"
        case $before in
        --attribute) files= ;;
        esac
        ;;
    add-document)
        flags="--definition --text --yes --dry-run"
        case $before in
        --definition) files= ;;
        --text) files= ;;
        esac
        ;;
    add-element)
        flags="--parent --child --definition --text --yes --dry-run"
        case $before in
        --parent) files= ;;
        --child) files= ;;
        --definition) files= ;;
        --text) files= ;;
        esac
        ;;
    destroy-element)
        flags="--element --yes --dry-run"
        case $before in
        --element) files= ;;
        esac
        ;;
    set-attribute)
        flags="--element --attribute --value --yes --dry-run"
        case $before in
        --element) files= ;;
        --attribute) files= ;;
        --value) files= ;;
        esac
        ;;
    destroy-attribute-row)
        flags="--element --attribute --yes --dry-run"
        case $before in
        --element) files= ;;
        --attribute) files= ;;
        esac
        ;;
    set-text)
        flags="--element --text --yes --dry-run"
        case $before in
        --element) files= ;;
        --text) files= ;;
        esac
        ;;
    run)
        flags="--yes --dry-run"
        ;;
    load)
        flags="--parent --columns --definition --child --separator --dry-run"
        case $before in
        --parent) files= ;;
        --columns) files= ;;
        --definition) files= ;;
        --child) files= ;;
        --separator) files= ;;
        esac
        ;;
    help)
        flags=""
        words="new read check sum undo print show diff create-definition destroy-definition insert-element remove-element change-quantifier convert-to-group flatten-group change-group-quantifier add-attribute destroy-attribute add-document add-element destroy-element set-attribute destroy-attribute-row set-text run load help man completions"
        ;;
    man)
        flags=""
        ;;
    completions)
        flags=""
        ;;
    esac
    if [ -n "$words" ]; then
        COMPREPLY=($(compgen -W "$words" -- "$word"))
    elif [ -n "$files" ] && [[ $word == -* ]]; then
        COMPREPLY=($(compgen -W "$flags --help" -- "$word"))
    elif [ -n "$files" ]; then
        compopt -o filenames 2>/dev/null
        COMPREPLY=($(compgen -f -- "$word"))
    fi
}
complete -F _boxform boxform
