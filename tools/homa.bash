# Completion of `homa` and `homa-simulate` for bash: their commands, and what each takes. A release installs it; in a checkout:
#     source tools/homa.bash
_homa_is_checkout() {
    local homa
    homa=$(readlink -f -- "$(command -v -- "$1")") && [ -f "${homa%/*}/crates.txt" ]
}

_homa() {
    local word=${COMP_WORDS[COMP_CWORD]} at=$COMP_CWORD command=${COMP_WORDS[1]}
    local commands="replay check make gen node record quiet" options="--help --version --which --proved"
    COMPREPLY=()
    case ${COMP_WORDS[at - 1]} in
    '<' | '>' | '>>' | '2>') # a file follows
        mapfile -t COMPREPLY < <(compgen -f -- "$word")
        return ;;
    esac
    if [ "$command" = --proved ] && [ "$at" -gt 1 ]; then
        command=${COMP_WORDS[2]} at=$((at - 1)) options=
    elif _homa_is_checkout "${COMP_WORDS[0]}"; then
        options+=" --prove"
    fi
    if [ "$at" -eq 1 ]; then
        mapfile -t COMPREPLY < <(compgen -W "$commands $options" -- "$word")
        return
    fi
    # a number can't be completed: what it means is shown as long as nothing is typed
    [ -z "$word" ] || return
    case $command:$at in
    make:2 | gen:2) COMPREPLY=("SEED" " ") ;;
    make:3 | gen:3) COMPREPLY=("CALLS: 1 to 100000" " ") ;;
    quiet:2 | quiet:3) COMPREPLY=("BYTES: 1 to 1000000" " ") ;;
    esac
}
_homa_simulate() {
    local word=${COMP_WORDS[COMP_CWORD]} at=$COMP_CWORD
    local words="summary figures totals calls schedule --json --progress" options="--help --version --which --proved"
    COMPREPLY=()
    case ${COMP_WORDS[at - 1]} in
    '<' | '>' | '>>' | '2>') # a file follows
        mapfile -t COMPREPLY < <(compgen -f -- "$word")
        return ;;
    esac
    if [ "$at" -eq 1 ]; then
        words+=" $options"
        ! _homa_is_checkout "${COMP_WORDS[0]}" || words+=" --prove"
    fi
    mapfile -t COMPREPLY < <(compgen -W "$words" -- "$word")
}
complete -F _homa homa ./homa
complete -F _homa_simulate homa-simulate ./homa-simulate
