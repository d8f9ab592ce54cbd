# Completion of ion_cmd for bash: commands, options, `text` and `binary`, and file names.
# Read it by `source ion_cmd.bash`, or put it into PREFIX/share/bash-completion/completions under the name ion_cmd,
# as tools/install.sh does.
_ion_cmd() {
    local word=${COMP_WORDS[COMP_CWORD]} before=${COMP_WORDS[COMP_CWORD - 1]} options='--catalog --depth --item'
    COMPREPLY=()
    if [ "$COMP_CWORD" = 1 ]; then
        mapfile -t COMPREPLY < <(compgen -W 'check show convert compare' -- "$word")
        return
    fi
    case $before in
    --to) mapfile -t COMPREPLY < <(compgen -W 'text binary' -- "$word"); return ;;
    --depth | --item) return ;;
    esac
    case $word in
    -*)
        [ "${COMP_WORDS[1]}" = convert ] && options="--to $options"
        mapfile -t COMPREPLY < <(compgen -W "$options" -- "$word")
        ;;
    *)
        compopt -o filenames 2>/dev/null
        mapfile -t COMPREPLY < <(compgen -f -- "$word")
        ;;
    esac
}
complete -F _ion_cmd ion_cmd
