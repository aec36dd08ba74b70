# Completion of fronthaul's words for bash: source this file, or put it where bash-completion looks.
_fronthaul() {
    local commands='replay summary capture show explain sent windows fit generate trial shared idle draw pcap pcap-capture prove'
    COMPREPLY=()
    if [ "$COMP_CWORD" -eq 1 ]; then
        COMPREPLY=($(compgen -W "$commands" -- "${COMP_WORDS[1]}"))
    elif [ "$COMP_CWORD" -eq 2 ] && [ "${COMP_WORDS[1]}" = show ]; then
        COMPREPLY=($(compgen -W --json -- "${COMP_WORDS[2]}"))
    elif [ "$COMP_CWORD" -eq 2 ] && [ "${COMP_WORDS[1]}" = explain ]; then
        COMPREPLY=($(compgen -W --faults -- "${COMP_WORDS[2]}"))
    elif [ "$COMP_CWORD" -eq 2 ] && [ "${COMP_WORDS[1]}" = draw ]; then
        COMPREPLY=($(compgen -W 'grid windows' -- "${COMP_WORDS[2]}"))
    elif [ "$COMP_CWORD" -eq 2 ] && [[ ${COMP_WORDS[1]} == pcap* ]]; then
        COMPREPLY=($(compgen -W 'dl ul' -- "${COMP_WORDS[2]}"))
    fi
}
complete -F _fronthaul fronthaul
