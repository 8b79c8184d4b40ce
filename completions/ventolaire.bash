# Completion of ventolaire for bash. To use it:
#
#   . completions/ventolaire.bash
#
# or copy it as `ventolaire` to ~/.local/share/bash-completion/completions.

# _ventolaire_words PREFIX WORD WORDS: completes WORD to one of WORDS, behind PREFIX.
_ventolaire_words() {
    mapfile -t COMPREPLY < <(compgen -P "$1" -W "$3" -- "$2")
}

# _ventolaire_files WORD: completes WORD to a file or folder.
_ventolaire_files() {
    mapfile -t COMPREPLY < <(compgen -f -- "$1")
    compopt -o filenames 2>/dev/null || :
}

# _ventolaire_names WORD NAMES: completes the last of names with commas between them.
_ventolaire_names() {
    local before=''
    case $1 in *,*) before=${1%,*}, ;; esac
    _ventolaire_words "$before" "${1##*,}" "$2"
    compopt -o nospace 2>/dev/null || :
}

# _ventolaire_value OPTION WORD: completes an option's value; fails if it takes none.
_ventolaire_value() {
    case $1 in
    --flag) _ventolaire_names "$2" 'O_DIRECTORY O_NOFOLLOW O_PATH O_CLOEXEC' ;;
    --resolve)
        _ventolaire_names "$2" 'RESOLVE_BENEATH RESOLVE_IN_ROOT RESOLVE_NO_XDEV
            RESOLVE_NO_SYMLINKS RESOLVE_NO_MAGICLINKS'
        ;;
    --paths-from | --names-from | --common | --output | -o) _ventolaire_files "$2" ;;
    --handle | --how) ;;
    *) return 1 ;;
    esac
}

_ventolaire() {
    local word=${COMP_WORDS[COMP_CWORD]} before=${COMP_WORDS[COMP_CWORD - 1]} options
    COMPREPLY=()
    if [ "$COMP_CWORD" -eq 1 ]; then
        _ventolaire_words '' "$word" 'check show build pack resolve lookup part canonical script demo --help -h --version -V'
        return
    fi
    # bash makes --flag=PATH three words: the option, the sign, the value.
    if [ "$word" = = ]; then
        word=''
    elif [ "$before" = = ]; then
        before=${COMP_WORDS[COMP_CWORD - 2]}
    fi
    _ventolaire_value "$before" "$word" && return
    case ${COMP_WORDS[1]} in
    check | script | demo) options='--json' ;;
    show) options='--manifest --dot --json' ;;
    build) options='-o --output --force --json' ;;
    pack) options='--mounts -o --output --force --json' ;;
    resolve) options='--handle --mark --flag --resolve --how --paths-from -0 --null --json' ;;
    lookup) options='--names-from -0 --null --json' ;;
    part) options='--handle --common --json' ;;
    canonical) options='-o --output --force --check --json' ;;
    *) return ;;
    esac
    case $word in
    -*) _ventolaire_words '' "$word" "$options --help -h" ;;
    *) _ventolaire_files "$word" ;;
    esac
}

complete -F _ventolaire ventolaire
