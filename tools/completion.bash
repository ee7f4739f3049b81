# Completes the words of ./vsa and ./view in a bash: source tools/completion.bash. The words of ./vsa are those of its usage.

# The options that a mode has by the usage, but those that stand among the words or that the chip hasn't.
_guessfir_options() {
    local usage=$1 mode=$2 chip=$3 option
    for option in $(grep -F "./vsa $mode CHIP" <<<"$usage" | grep -oE -- '--[a-z]+'); do
        case $chip,$option in
            mcs51,--ram | mcs51,--mirror) continue ;;
        esac
        [[ " ${COMP_WORDS[*]:0:COMP_CWORD} " == *" $option "* ]] || echo "$option"
    done
}

_guessfir_vsa() {
    local word=${COMP_WORDS[COMP_CWORD]} before=${COMP_WORDS[COMP_CWORD - 1]} usage here at places=()
    here=$(dirname "$(readlink -f "$(type -P "${COMP_WORDS[0]}" || echo "${COMP_WORDS[0]}")")")
    usage=$("$here/tools/usage" 2>/dev/null) || return
    # (bash takes the = of --name=value as a word)
    for ((at = 1; at < COMP_CWORD; at++)); do
        case ${COMP_WORDS[at]} in
            --cert) ;;
            --*) [ "${COMP_WORDS[at + 1]}" = = ] && at=$((at + 2)) || at=$((at + 1)) ;;
            *) places+=("${COMP_WORDS[at]}") ;;
        esac
    done
    if [ "$before" = = ]; then
        before=${COMP_WORDS[COMP_CWORD - 2]}
    elif [ "$word" = = ]; then
        word=
    fi
    case $before in
        --ram) COMPREPLY=($(compgen -W "0200-03FF 0200-05FF 0200-09FF" -- "$word")) ;;
        --mirror) COMPREPLY=($(compgen -W "0200-05FF 0200-09FF" -- "$word")) ;;
        --calls | --targets | --workers | --steps | --number) COMPREPLY=() ;;
        *)
            if [[ $word == -* ]]; then
                if [ ${#places[@]} = 0 ]; then
                    COMPREPLY=($(compgen -W "--help --version" -- "$word"))
                else
                    COMPREPLY=($(compgen -W "$(_guessfir_options "$usage" "${places[@]:0:2}")" -- "$word"))
                fi
            elif [ ${#places[@]} = 0 ]; then
                COMPREPLY=($(compgen -W "$(sed -n '/^Modes/,/^$/s/^  \([a-z0-9]*\)  .*/\1/p' <<<"$usage")" -- "$word"))
            elif [ ${#places[@]} = 1 ]; then
                COMPREPLY=($(compgen -W "$(sed -n '/^Chips/,/^$/s/^  \([a-z0-9]*\)  .*/\1/p' <<<"$usage")" -- "$word"))
            else
                mapfile -t COMPREPLY < <(compgen -f -- "$word")
            fi
            ;;
    esac
}

_guessfir_view() {
    local word=${COMP_WORDS[COMP_CWORD]}
    if [ "$COMP_CWORD" = 1 ]; then
        COMPREPLY=($(compgen -W "html dot diff --help --version" -- "$word"))
    elif [ "${COMP_WORDS[1]}" = dot ]; then
        COMPREPLY=($(compgen -W "calls --names" -- "$word"))
    else
        mapfile -t COMPREPLY < <(compgen -f -- "$word")
    fi
}

complete -o filenames -F _guessfir_vsa vsa ./vsa
complete -o filenames -F _guessfir_view view ./view
