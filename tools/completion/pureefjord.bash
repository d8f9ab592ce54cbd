# Completion of pureefjord for bash: commands, options, `text` and `binary`, and file names.
# Read it by `source pureefjord.bash`, or put it into PREFIX/share/bash-completion/completions under the name pureefjord,
# as tools/install.sh does.
_pureefjord() {
    local word=${COMP_WORDS[COMP_CWORD]} before=${COMP_WORDS[COMP_CWORD - 1]} command=${COMP_WORDS[1]} options='--help --catalog --depth --item'
    local commands='check diff cat pretty json to at floats inspect generate try-writer try-reader help'
    local reasons='Ambiguous BadBase64 BadEscape BadTable BadUtf8 Depth DuplicateTable Float ImportGap Incomplete ItemTooLong KeywordAsName Malformed Memory MissingImport NullTable Open Read RepeatedField SymbolRange TableTooLarge TooLarge TooManyReads Unexpected Version Write'
    COMPREPLY=()
    if [ "$COMP_CWORD" = 1 ]; then
        mapfile -t COMPREPLY < <(compgen -W "$commands --help --version" -- "$word")
        return
    fi
    [ "$command $before" != 'check --format' ] || before=formats
    case $before in
    to | formats | --format | --color) mapfile -t COMPREPLY < <(compgen -W "$(_pureefjord_words "$before")" -- "$word"); return ;;
    help) mapfile -t COMPREPLY < <(compgen -W "$commands $reasons" -- "$word"); return ;;
    --depth | --item | --most | --jobs | --ignore | --unordered | --seed | --count | --seconds) return ;;
    esac
    case $word in
    -*)
        case $command in
        check) options="$options --quiet --most --jobs --format --floats --color" ;;
        diff) options="$options --quiet --format --html --ignore --numbers --unordered --floats --color" ;;
        cat) options="$options --output" ;;
        to) options="$options --output --others --floats --down-convert --indent" ;;
        pretty) options="$options --output --color" ;;
        json) options="$options --output --down-convert --indent" ;;
        floats) options='--help --output' ;;
        generate) options='--help --seed --count --text --binary --plain --refused --output' ;;
        try-writer | try-reader) options='--help --seed --count --text --binary --plain --most --seconds --jobs --output' ;;
        help) options='--help' ;;
        esac
        mapfile -t COMPREPLY < <(compgen -W "$options" -- "$word")
        ;;
    *)
        compopt -o filenames 2>/dev/null
        mapfile -t COMPREPLY < <(compgen -f -- "$word")
        ;;
    esac
}

# What may follow a word.
_pureefjord_words() {
    case $1 in
    to) echo text binary json ;;
    --format) echo text json ;;
    formats) echo text json github sarif junit ;;
    --color) echo auto always never ;;
    esac
}
complete -F _pureefjord pureefjord
