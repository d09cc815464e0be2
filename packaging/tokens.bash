# Completion for bash. The options are those that `tokens --help` names.
_tokens() {
    local word=${COMP_WORDS[COMP_CWORD]} before=${COMP_WORDS[COMP_CWORD - 1]} words=
    case $before in
        --emit) words='c rust' ;;
        --color) words='auto always never' ;;
        *) if [[ $word = -* ]]; then words=$(tokens --help | grep -oE '^  (-., )?--[a-z]+' | grep -oE -e '--[a-z]+'); fi ;;
    esac
    mapfile -t COMPREPLY < <(if [ "$words" ]; then compgen -W "$words" -- "$word"; else compgen -f -- "$word"; fi)
}
complete -o filenames -F _tokens tokens
