# Completion of cssmin for bash.
_cssmin() {
    local word=${COMP_WORDS[COMP_CWORD]} before=${COMP_WORDS[COMP_CWORD - 1]} words="" it
    COMPREPLY=()
    case $before in
        *'<' | *'>')
            compopt -o filenames 2>/dev/null
            mapfile -t COMPREPLY < <(compgen -f -- "$word")
            return
            ;;
        --budget | --limit | --work | =) return ;;
    esac
    if [ "$COMP_CWORD" = 1 ]; then
        words='min cmp dead style why same diff blockers list lint inspect check trial help --help --version'
    else
        case ${COMP_WORDS[1]} in
            min) words='--budget --work --report' ;;
            cmp) words='--budget --log' ;;
            diff) words='--budget --limit' ;;
            dead | why | same | blockers | lint) words='--budget' ;;
            style | list | inspect | check | trial) ;;
            *) return ;;
        esac
        # help alone, and no option twice
        [ "$COMP_CWORD" = 2 ] && words+=' --help'
        for it in "${COMP_WORDS[@]:2:COMP_CWORD-2}"; do words=" $words "; words=${words/ $it / }; done
    fi
    mapfile -t COMPREPLY < <(compgen -W "$words" -- "$word")
}
complete -F _cssmin cssmin
