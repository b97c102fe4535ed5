# Completion of the command ghatumri for bash; zsh reads it through bashcompinit.
_ghatumri() {
    local cur=$2 prev=$3 words='text records image table why diff answers room repair'
    case $prev in
    -g) COMPREPLY=($(compgen -W 'standard small' -- "$cur")); return ;;
    -l | --count) return ;;
    esac
    case $cur in
    -*) COMPREPLY=($(compgen -W '-g -l -c -o --count --json --svg --help --version' -- "$cur")) ;;
    *)
        if [ "$COMP_CWORD" -eq 1 ]; then
            COMPREPLY=($(compgen -W "$words" -- "$cur"))
        else
            COMPREPLY=($(compgen -f -- "$cur"))
        fi
        ;;
    esac
}
complete -o filenames -F _ghatumri ghatumri
