#compdef tokens
# The options are those that `tokens --help` names.
case $words[CURRENT-1] in
    --emit) compadd c rust ;;
    --color) compadd auto always never ;;
    *) if [[ $words[CURRENT] = -* ]]; then
        compadd -- $(tokens --help | grep -oE '^  (-., )?--[a-z]+' | grep -oE -e '--[a-z]+')
    else
        _files
    fi ;;
esac
