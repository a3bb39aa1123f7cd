# Completes in bash what is typed behind ballot_store: commands, options of large, and else the names of files.

_ballot_store() {
    local word=${COMP_WORDS[COMP_CWORD]} before=${COMP_WORDS[COMP_CWORD - 1]} offered="" option
    COMPREPLY=()
    [[ $before != [\<\>]* ]] || return 0
    if ((COMP_CWORD == 3)); then
        offered="init session audit build large sample compare merge migrate twin part replay"
    elif ((COMP_CWORD > 3)) && [[ ${COMP_WORDS[3]} == large ]]; then
        for option in --seed --count --tabs; do
            [[ " ${COMP_WORDS[*]:4:COMP_CWORD-4} " == *" $option "* ]] || offered+=" $option"
        done
        [[ $before != --* ]] || offered="" # (a number)
    else
        return 0
    fi
    # (no file stands here, so none is offered)
    compopt +o default 2>/dev/null || true
    mapfile -t COMPREPLY < <(compgen -W "$offered" -- "$word")
}

complete -o default -F _ballot_store ballot_store
