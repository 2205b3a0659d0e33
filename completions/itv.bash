# Bash completions for itv. Made by checks/manual.py from docs/commands.json.

_itv_values() {
    case $1 in
        verify--policy | verify--policy=) compgen -f -- "$word" ;;
        verify--layout | verify--layout=) compgen -f -- "$word" ;;
        verify--links | verify--links=) compgen -d -- "$word" ;;
        verify--sums | verify--sums=) compgen -f -- "$word" ;;
        verify--sums512 | verify--sums512=) compgen -f -- "$word" ;;
        verify--ring | verify--ring=) compgen -f -- "$word" ;;
        verify--public-keys) compgen -W '--policy --layout --links --at --sums --sums512 --ring --public-keys --trusted-root --json --strict --summary --verifier --resource --provenance --records --depth --most-checks' -- "$word" ;;
        verify--trusted-root | verify--trusted-root=) compgen -f -- "$word" ;;
        verify--json=) compgen -W 2 -- "$word" ;;
        verify--json) compgen -W '--policy --layout --links --at --sums --sums512 --ring --public-keys --trusted-root --json --strict --summary --verifier --resource --provenance --records --depth --most-checks' -- "$word" ;;
        verify--strict) compgen -W '--policy --layout --links --at --sums --sums512 --ring --public-keys --trusted-root --json --strict --summary --verifier --resource --provenance --records --depth --most-checks' -- "$word" ;;
        verify--summary) compgen -W '--policy --layout --links --at --sums --sums512 --ring --public-keys --trusted-root --json --strict --summary --verifier --resource --provenance --records --depth --most-checks' -- "$word" ;;
        verify--provenance | verify--provenance=) compgen -f -- "$word" ;;
        verify--records | verify--records=) compgen -d -- "$word" ;;
        verify--depth | verify--depth=) compgen -W '0 1 2 3 4 5 6 7 8' -- "$word" ;;
        check--policy | check--policy=) compgen -f -- "$word" ;;
        check--layout | check--layout=) compgen -f -- "$word" ;;
        signed--ring | signed--ring=) compgen -f -- "$word" ;;
        signed--keys | signed--keys=) compgen -f -- "$word" ;;
        signed--trusted-root | signed--trusted-root=) compgen -f -- "$word" ;;
        sign--ring | sign--ring=) compgen -f -- "$word" ;;
        sign--signature | sign--signature=) compgen -f -- "$word" ;;
        sign--keys | sign--keys=) compgen -f -- "$word" ;;
        sign--type | sign--type=) compgen -W application/vnd.in-toto+json -- "$word" ;;
        sign--onto | sign--onto=) compgen -f -- "$word" ;;
        pae--type | pae--type=) compgen -W application/vnd.in-toto+json -- "$word" ;;
        digest--recursive) compgen -W '--recursive --sha512' -- "$word"; compgen -f -- "$word" ;;
        digest--sha512) compgen -W '--recursive --sha512' -- "$word"; compgen -f -- "$word" ;;
        link--materials | link--materials=) compgen -f -- "$word" ;;
        link--products | link--products=) compgen -f -- "$word" ;;
        statement--sums | statement--sums=) compgen -f -- "$word" ;;
        statement--parameters | statement--parameters=) compgen -f -- "$word" ;;
    esac
}

_itv() {
    local word=${COMP_WORDS[COMP_CWORD]} before=${COMP_WORDS[COMP_CWORD - 1]}
    local command=${COMP_WORDS[1]} offered
    # Of --option=value bash makes three words.
    if [ "$word" = = ]; then
        word= before=$before=
    elif [ "$before" = = ]; then
        before=${COMP_WORDS[COMP_CWORD - 2]}=
    fi
    if [ "$COMP_CWORD" = 1 ]; then
        offered=$(compgen -W 'verify check signed sign pae digest link statement payload key match' -- "$word")
    elif [[ $before == --* ]]; then
        offered=$(_itv_values "$command$before")
    else
        case $command in
            verify) offered=$(compgen -W '--policy --layout --links --at --sums --sums512 --ring --public-keys --trusted-root --json --strict --summary --verifier --resource --provenance --records --depth --most-checks' -- "$word") ;;
            check) offered=$(compgen -W '--policy --layout' -- "$word") ;;
            signed) offered=$(compgen -W '--ring --keys --trusted-root' -- "$word"; compgen -f -- "$word") ;;
            sign) offered=$(compgen -W '--ring --signature --keys --key --type --onto' -- "$word"; compgen -f -- "$word") ;;
            pae) offered=$(compgen -W '--type' -- "$word"; compgen -f -- "$word") ;;
            digest) offered=$(compgen -W '--recursive --sha512' -- "$word"; compgen -f -- "$word") ;;
            link) offered=$(compgen -W '--name --materials --products' -- "$word") ;;
            statement) offered=$(compgen -W '--sums --builder --build-type --parameters' -- "$word") ;;
            payload) offered=$(compgen -f -- "$word") ;;
            key) offered=$(compgen -W '--identity --issuer --name' -- "$word"; compgen -f -- "$word") ;;
        esac
    fi
    mapfile -t COMPREPLY < <(printf '%s' "${offered:+$offered$'\n'}")
}

complete -o filenames -F _itv itv
