# Completion of bash for the programs: their options, numbers that `--jobs` often has, files and folders.

# Offers the lines of a text.
_odin_offer() {
    COMPREPLY=()
    [ -z "$1" ] || mapfile -t COMPREPLY <<< "$1"
}

_odin() {
    local word=$2 before=$3
    case $before in
    --jobs) _odin_offer "$(compgen -W "1 2 4 8 16 32 64 $(nproc 2> /dev/null)" -- "$word")" ;;
    --load) _odin_offer "$(compgen -W '40 200 2000' -- "$word")" ;;
    *)
        case $word in
        -*) _odin_offer "$(compgen -W '--jobs --load' -- "$word")" ;;
        *) _odin_offer "$(compgen -f -- "$word")" ;;
        esac
        ;;
    esac
}

_odin_get() {
    local word=$2 before=$3
    if [ "$before" = -o ]; then
        _odin_offer "$(compgen -f -- "$word")"
    else
        _odin_offer "$(compgen -W '-o -m -l' -- "$word")"
    fi
}

# The names of the targets in the file of a project, in this folder or the next one above that has it.
_odin_targets() {
    local folder=$PWD
    while [ -n "$folder" ] && ! [ -e "$folder/odin.toml" ]; do
        folder=${folder%/*}
    done
    sed -n 's/^\[target\.\([A-Za-z0-9_-]*\)\]$/\1/p' "$folder/odin.toml" 2> /dev/null
}

_odin_build() {
    local word=$2 before=$3
    case $before in
    -C) _odin_offer "$(compgen -d -- "$word")" ;;
    -j) _odin_offer "$(compgen -W "1 2 4 8 16 32 64 $(nproc 2> /dev/null)" -- "$word")" ;;
    --color) _odin_offer "$(compgen -W 'auto always never' -- "$word")" ;;
    --trace | --page) _odin_offer "$(compgen -f -- "$word")" ;;
    *)
        case $word in
        -*) _odin_offer "$(compgen -W '-C -j -n -q -v --quiet --verbose --why --color --trace --page --help --version' -- "$word")" ;;
        *) _odin_offer "$(compgen -W "$(_odin_targets)" -- "$word")" ;;
        esac
        ;;
    esac
}

complete -o filenames -F _odin odin
complete -o filenames -F _odin_build odin-build
complete -o filenames -F _odin_get odin_get
complete -o filenames -A directory odin_takes
complete -o filenames -A file odin_lay
