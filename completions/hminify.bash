# bash completion for hminify. Made by `python3 tests/flags.py --write`; don't change it by hand.

_hminify() {
    local word=${COMP_WORDS[COMP_CWORD]} command='' names=0 at it
    local flags=(--comments --booleans --empty --redundant --doctype --space --conservative --omit --unquote --tight --ascii --sparse --order)
    COMPREPLY=()
    for ((at = 1; at < COMP_CWORD; at++)); do
        case ${COMP_WORDS[at]} in
            -*) ;;
            *)
                names=$((names + 1))
                [[ $names -gt 1 ]] || command=${COMP_WORDS[at]}
                ;;
        esac
    done
    if [[ $word == -* ]]; then
        for it in "${flags[@]}"; do
            [[ $it != "$word"* || " ${COMP_WORDS[*]:1:COMP_CWORD-1} " == *" $it "* ]] || COMPREPLY+=("$it")
        done
        return
    fi
    case $command,$names in
        ,0) mapfile -t COMPREPLY < <(compgen -W 'minify check fragment checkfragment tree json explain minifyjson measure help version' -- "$word") ;;
        minify,1) mapfile -t COMPREPLY < <(compgen -W 'html none' -- "$word"; compgen -f -- "$word") ;;
        minify,2) mapfile -t COMPREPLY < <(compgen -f -- "$word") ;;
        minify,3) mapfile -t COMPREPLY < <(compgen -f -- "$word") ;;
        minify,4) mapfile -t COMPREPLY < <(compgen -f -- "$word") ;;
        check,1) mapfile -t COMPREPLY < <(compgen -W 'html none' -- "$word"; compgen -f -- "$word") ;;
        check,2) mapfile -t COMPREPLY < <(compgen -f -- "$word") ;;
        check,3) mapfile -t COMPREPLY < <(compgen -f -- "$word") ;;
        check,4) mapfile -t COMPREPLY < <(compgen -f -- "$word") ;;
        fragment,1) mapfile -t COMPREPLY < <(compgen -W 'html none' -- "$word"; compgen -f -- "$word") ;;
        fragment,2) mapfile -t COMPREPLY < <(compgen -f -- "$word") ;;
        fragment,3) mapfile -t COMPREPLY < <(compgen -f -- "$word") ;;
        fragment,4) mapfile -t COMPREPLY < <(compgen -f -- "$word") ;;
        checkfragment,1) mapfile -t COMPREPLY < <(compgen -W 'html none' -- "$word"; compgen -f -- "$word") ;;
        checkfragment,2) mapfile -t COMPREPLY < <(compgen -f -- "$word") ;;
        checkfragment,3) mapfile -t COMPREPLY < <(compgen -f -- "$word") ;;
        checkfragment,4) mapfile -t COMPREPLY < <(compgen -f -- "$word") ;;
        tree,1) mapfile -t COMPREPLY < <(compgen -W 'html none' -- "$word"; compgen -f -- "$word") ;;
        tree,2) mapfile -t COMPREPLY < <(compgen -f -- "$word") ;;
        json,1) mapfile -t COMPREPLY < <(compgen -W 'html none' -- "$word"; compgen -f -- "$word") ;;
        json,2) mapfile -t COMPREPLY < <(compgen -f -- "$word") ;;
        explain,1) mapfile -t COMPREPLY < <(compgen -W 'html none' -- "$word"; compgen -f -- "$word") ;;
        explain,2) mapfile -t COMPREPLY < <(compgen -f -- "$word") ;;
        minifyjson,1) mapfile -t COMPREPLY < <(compgen -W 'html none' -- "$word"; compgen -f -- "$word") ;;
        minifyjson,2) mapfile -t COMPREPLY < <(compgen -f -- "$word") ;;
        minifyjson,3) mapfile -t COMPREPLY < <(compgen -f -- "$word") ;;
        minifyjson,4) mapfile -t COMPREPLY < <(compgen -f -- "$word") ;;
        measure,1) mapfile -t COMPREPLY < <(compgen -W 'html none' -- "$word"; compgen -f -- "$word") ;;
    esac
}

complete -o filenames -F _hminify hminify ./hminify
