# Made by tools/make-pages from what --help says. Completion of ssign-archive for bash.
# shellcheck shell=bash

# _ssign_archive_offer KIND [WORDS]: what may stand here.
_ssign_archive_offer() {
    local current=${COMP_WORDS[COMP_CWORD]}
    [[ $current == = ]] && current=
    case $1 in
    words) mapfile -t COMPREPLY < <(compgen -W "$2" -- "$current") ;;
    codes) mapfile -t COMPREPLY < <(compgen -W '' -- "$current") ;;
    files)
        compopt -o filenames 2>/dev/null
        mapfile -t COMPREPLY < <(compgen -f -- "$current")
        ;;
    folders)
        compopt -o filenames 2>/dev/null
        mapfile -t COMPREPLY < <(compgen -d -- "$current")
        ;;
    esac
}

_ssign_archive() {
    local current=${COMP_WORDS[COMP_CWORD]} before=${COMP_WORDS[COMP_CWORD - 1]} second='' command=${COMP_WORDS[1]}
    COMPREPLY=()
    if [[ $before == *['<>'] ]]; then
        _ssign_archive_offer files
        return
    fi
    if ((COMP_CWORD == 1)); then
        _ssign_archive_offer words 'split join help --help --version'
        return
    fi
    ((COMP_CWORD > 3)) && second=${COMP_WORDS[COMP_CWORD - 2]}
    # --option=value is three words here
    [[ $before == = ]] && before=$second second=
    case "$command $second" in
    *) ;;
    esac
    case "$command $before" in
    'split --by') _ssign_archive_offer words 'host session' ;;
    'split --max-len') _ssign_archive_offer text ;;
    'split --max-messages') _ssign_archive_offer text ;;
    'split --max-expanded') _ssign_archive_offer text ;;
    'split --ssign') _ssign_archive_offer files ;;
    'join --max-len') _ssign_archive_offer text ;;
    'join --max-messages') _ssign_archive_offer text ;;
    'join --max-expanded') _ssign_archive_offer text ;;
    'join --ssign') _ssign_archive_offer files ;;
    *) _ssign_archive_words "$command" "$current" ;;
    esac
}

# _ssign_archive_words COMMAND CURRENT: a word that is no value of an option.
_ssign_archive_words() {
    case $1 in
    split)
        if [[ $2 == -* ]]; then
            _ssign_archive_offer words '--help --by --lines --max-len --max-messages --max-expanded --ssign'
        else
            _ssign_archive_offer files
        fi
        ;;
    join)
        if [[ $2 == -* ]]; then
            _ssign_archive_offer words '--help --lines --max-len --max-messages --max-expanded --ssign'
        else
            _ssign_archive_offer folders
        fi
        ;;
    help) _ssign_archive_offer words 'split join' ;;
    esac
}

complete -F _ssign_archive ssign-archive
