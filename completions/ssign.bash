# Made by tools/make-pages from what --help says. Completion of ssign for bash.
# shellcheck shell=bash

# _ssign_offer KIND [WORDS]: what may stand here.
_ssign_offer() {
    local current=${COMP_WORDS[COMP_CWORD]}
    [[ $current == = ]] && current=
    case $1 in
    words) mapfile -t COMPREPLY < <(compgen -W "$2" -- "$current") ;;
    codes) mapfile -t COMPREPLY < <(compgen -W 'F1 F2 F3 F4 F5 F9 A1 A2 A3 A4 Q1 D1 C1 C2 C3 C4 C5 C6 N1 N2 N3 N4 V1 E1 E2 W1 W2 P1 P2 O1 O2 O3 O6 O7 O8 O9 O10 O11 verified unverified missing unannounced session ok gap lost hole early beyond blocks tail tally disorder unlisted refused spoilt damaged unlisted-count refused-count spoilt-count damaged-count torn signature-block certificate-block sha1 not-ignored none-listed empty end joined disputed incomplete malformed untrusted unaccepted absent plain unparsed signature certificate wrapped-plain wrapped-unparsed wrapped-signature wrapped-certificate wrapped-spoilt count want seal payload trust\? yes\? M1 M2 M3 M4 M5 M6 M7 M8 M9 M10 M11 M12 S1 S2 S3 S4 S5 S6 S7 S8 S9' -- "$current") ;;
    files)
        compopt -o filenames 2>/dev/null
        mapfile -t COMPREPLY < <(compgen -f -- "$current")
        ;;
    folders)
        compopt -o filenames 2>/dev/null
        mapfile -t COMPREPLY < <(compgen -d -- "$current")
        ;;
    esac
}

_ssign() {
    local current=${COMP_WORDS[COMP_CWORD]} before=${COMP_WORDS[COMP_CWORD - 1]} second='' command=${COMP_WORDS[1]}
    COMPREPLY=()
    if [[ $before == *['<>'] ]]; then
        _ssign_offer files
        return
    fi
    if ((COMP_CWORD == 1)); then
        _ssign_offer words 'review questions extract inspect plan sign counters carry describe explain help --help --version'
        return
    fi
    ((COMP_CWORD > 3)) && second=${COMP_WORDS[COMP_CWORD - 2]}
    # --option=value is three words here
    [[ $before == = ]] && before=$second second=
    case "$command $second" in
    *) ;;
    esac
    case "$command $before" in
    'review --answers') _ssign_offer files ;;
    'review --ask') _ssign_offer files ;;
    'review --counters') _ssign_offer files ;;
    'review --from') _ssign_offer files ;;
    'review --pinned') _ssign_offer files ;;
    'review --max-len') _ssign_offer text ;;
    'review --max-messages') _ssign_offer text ;;
    'questions --pinned') _ssign_offer files ;;
    'questions --max-len') _ssign_offer text ;;
    'questions --max-messages') _ssign_offer text ;;
    'extract --answers') _ssign_offer files ;;
    'extract --place') _ssign_offer text ;;
    'extract --places') _ssign_offer files ;;
    'extract --pinned') _ssign_offer files ;;
    'extract --max-len') _ssign_offer text ;;
    'extract --max-messages') _ssign_offer text ;;
    'inspect --facts') _ssign_offer files ;;
    'inspect --max-len') _ssign_offer text ;;
    'inspect --max-messages') _ssign_offer text ;;
    'plan --resume') _ssign_offer files ;;
    'plan --payload') _ssign_offer text ;;
    'plan --rsid') _ssign_offer text ;;
    'plan --stamp') _ssign_offer text ;;
    'plan --pri') _ssign_offer text ;;
    'plan --host') _ssign_offer text ;;
    'plan --app') _ssign_offer text ;;
    'plan --procid') _ssign_offer text ;;
    'plan --msgid') _ssign_offer text ;;
    'plan --ver') _ssign_offer words '0111 0121' ;;
    'plan --groups') _ssign_offer words 'one pri' ;;
    'plan --count') _ssign_offer text ;;
    'plan --frag') _ssign_offer text ;;
    'plan --copies') _ssign_offer text ;;
    'plan --max-len') _ssign_offer text ;;
    'plan --max-messages') _ssign_offer text ;;
    'sign --answers') _ssign_offer files ;;
    'sign --resume') _ssign_offer files ;;
    'sign --payload') _ssign_offer text ;;
    'sign --rsid') _ssign_offer text ;;
    'sign --stamp') _ssign_offer text ;;
    'sign --pri') _ssign_offer text ;;
    'sign --host') _ssign_offer text ;;
    'sign --app') _ssign_offer text ;;
    'sign --procid') _ssign_offer text ;;
    'sign --msgid') _ssign_offer text ;;
    'sign --ver') _ssign_offer words '0111 0121' ;;
    'sign --groups') _ssign_offer words 'one pri' ;;
    'sign --count') _ssign_offer text ;;
    'sign --frag') _ssign_offer text ;;
    'sign --copies') _ssign_offer text ;;
    'sign --max-len') _ssign_offer text ;;
    'sign --max-messages') _ssign_offer text ;;
    'counters --answers') _ssign_offer files ;;
    'counters --pinned') _ssign_offer files ;;
    'counters --max-len') _ssign_offer text ;;
    'counters --max-messages') _ssign_offer text ;;
    'carry --answers') _ssign_offer files ;;
    'carry --max-len') _ssign_offer text ;;
    'carry --max-messages') _ssign_offer text ;;
    *) _ssign_words "$command" "$current" ;;
    esac
}

# _ssign_words COMMAND CURRENT: a word that is no value of an option.
_ssign_words() {
    case $1 in
    review) _ssign_offer words '--answers --ask --findings --json --whole --tally --brief --blocks --in-order --not-empty --some-listed --no-sha1 --ignore-strangers --counters --from --pinned --salvage --lines --max-len --max-messages --help' ;;
    questions) _ssign_offer words '--json --once --pinned --salvage --lines --max-len --max-messages --help' ;;
    extract) _ssign_offer words '--answers --unlisted --place --places --lines-out --unwrap --pinned --salvage --lines --max-len --max-messages --help' ;;
    inspect) _ssign_offer words '--findings --json --facts --unwrap --salvage --lines --max-len --max-messages --help' ;;
    plan) _ssign_offer words '--resume --ahead --wrap --payload --rsid --stamp --pri --host --app --procid --msgid --ver --groups --count --frag --copies --lines --max-len --max-messages --help' ;;
    sign) _ssign_offer words '--answers --resume --wrap --lines-out --payload --rsid --stamp --pri --host --app --procid --msgid --ver --groups --count --frag --copies --lines --max-len --max-messages --help' ;;
    counters) _ssign_offer words '--answers --json --pinned --salvage --lines --max-len --max-messages --help' ;;
    carry) _ssign_offer words '--answers --salvage --lines --max-len --max-messages --help' ;;
    describe) _ssign_offer words '--help' ;;
    explain)
        if [[ $2 == -* ]]; then
            _ssign_offer words '--json --help'
        else
            _ssign_offer codes
        fi
        ;;
    help) _ssign_offer words 'review questions extract inspect plan sign counters carry describe explain' ;;
    esac
}

complete -F _ssign ssign
