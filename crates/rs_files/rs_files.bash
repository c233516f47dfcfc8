# Completion of the command line of rs_files for bash. Load it with `. rs_files.bash`, or copy it to a folder of completions.

_rs_files() {
    local word=${COMP_WORDS[COMP_CWORD]} before=${COMP_WORDS[COMP_CWORD - 1]} options
    if [ "$COMP_CWORD" = 1 ]; then
        COMPREPLY=($(compgen -W "create split update verify repair restore info --help --version" -- "$word"))
        return
    fi
    case $before in
        --progress) COMPREPLY=($(compgen -W "auto always never" -- "$word")); return ;;
        --folder | --search | --to) COMPREPLY=($(compgen -d -- "$word")); return ;;
    esac
    case ${COMP_WORDS[1]} in
        create) options="--output --recovery --block --accept --skip-names --force --memory --json --progress --quiet --help" ;;
        split) options="--output --volumes --lose --block --accept --skip-names --force --memory --json --progress --quiet --help" ;;
        update) options="--recovery --block --accept --skip-names --folder --memory --json --progress --quiet --help" ;;
        verify) options="--folder --search --only --quick --memory --json --progress --quiet --help" ;;
        repair) options="--folder --search --only --memory --json --progress --quiet --help" ;;
        restore) options="--to --folder --search --only --force --memory --json --progress --quiet --help" ;;
        info) options="--memory --json --help" ;;
    esac
    case $word in
        -*) COMPREPLY=($(compgen -W "$options" -- "$word")) ;;
        *) COMPREPLY=($(compgen -f -- "$word")) ;;
    esac
}

complete -o filenames -F _rs_files rs_files
