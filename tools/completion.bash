# Completion of kaudit's programs for bash.
_kaudit()
{
    local word=${COMP_WORDS[COMP_CWORD]} program=${COMP_WORDS[0]##*/}
    local commands=
    case ${program%-unproved} in
        kaudit) commands="word layout show check selftest certify recheck" ;;
        kplain) commands="check certify recheck show word core" ;;
        kfiles) [ "$COMP_CWORD" -eq 2 ] && commands="map types log modules module note" ;;
        kwhy) [ "$COMP_CWORD" -eq 4 ] && commands="refs"
            [ "$COMP_CWORD" -eq 6 ] && [ "${COMP_WORDS[4]}" = refs ] && commands="progress" ;;
        ktriage) commands="--types --map --json --html --keep --programs --plans --help" ;;
    esac
    COMPREPLY=()
    case ${program%-unproved} in
        kaudit|kplain) [ "$COMP_CWORD" -eq 1 ] && COMPREPLY=($(compgen -W "$commands" -- "$word")) && return ;;
        ktriage) case $word in -*) COMPREPLY=($(compgen -W "$commands" -- "$word")); return ;; esac ;;
        *) [ -n "$commands" ] && COMPREPLY=($(compgen -W "$commands" -- "$word")) ;;
    esac
    COMPREPLY+=($(compgen -f -- "$word"))
}
complete -o filenames -F _kaudit kaudit kmatch kwhy kplain kfiles kslab ktriage kaudit-unproved kmatch-unproved kwhy-unproved kplain-unproved kfiles-unproved kslab-unproved
