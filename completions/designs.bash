# Completes the words of designs in bash: verbs, kinds of question, and the group of a difference family; no numbers.
# To have it, in ~/.bashrc: . PATH/completions/designs.bash
_designs() {
    local offered= verb=${COMP_WORDS[1]} kind=${COMP_WORDS[2]}
    case $COMP_CWORD in
        1) offered="ask batch build check closure explain replay workload" ;;
        2) case $verb in ask | build | check | closure | explain) offered="bibd df gdd mols oa pbd plane sts td" ;; esac ;;
        3) case $verb-$kind in ask-df | build-df | check-df | closure-df | explain-df) offered="f z" ;; esac ;;
    esac
    COMPREPLY=($(compgen -W "$offered" -- "${COMP_WORDS[COMP_CWORD]}"))
}
complete -F _designs designs
