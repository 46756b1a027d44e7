# Lets bash complete the words of fhirprof: commands, options, and the names of folders and files where a word is one.
# It is read by `. docs/fhirprof.bash`, or stands in the folder of completions under the name fhirprof.

_fhirprof() {
    local current=${COMP_WORDS[COMP_CWORD]} options='' places=() place=0 is_value='' is_rest='' i word
    local commands='check audit compare derive counter counter-given certify migrate validate validate-given validate-all unread snapshot serve serve-given gather'
    COMPREPLY=()
    if ((COMP_CWORD == 1)); then
        mapfile -t COMPREPLY < <(compgen -W "$commands --version" -- "$current")
        return
    fi
    case ${COMP_WORDS[1]} in
    check) options='--only --each --json' places=(folder file) ;;
    audit) options='--only --given --html --certificates --against --json' places=(folder) ;;
    compare) options='--for --json' places=(folder folder) ;;
    derive | counter) places=(folder url url) ;;
    counter-given) places=(folder url url file) ;;
    certify | migrate) places=(folder file) ;;
    validate) places=(folder url file) ;;
    validate-given) places=(folder url file file) ;;
    validate-all) options='--json --given --only-bad --skip-unknown' places=(folder url file) ;;
    unread | snapshot) places=(folder url) ;;
    serve) places=(folder) ;;
    serve-given) places=(folder file) ;;
    gather) options='--each' places=(folder folder) ;;
    *) return ;;
    esac

    # Which of the command's words the current one is. Bash parts a url at its colons: what stands behind one is the rest of a word.
    for ((i = 2; i < COMP_CWORD; i++)); do
        word=${COMP_WORDS[i]}
        if [[ $word =~ ^[:=]+$ ]]; then
            is_rest=1
        elif [[ $is_rest ]]; then
            is_rest='' is_value=''
        elif [[ $is_value ]]; then
            is_value=''
        elif [[ $word == --only || $word == --for ]]; then
            is_value=url
        elif [[ $word == --given || $word == --html ]]; then
            is_value=file
        elif [[ $word == --certificates || $word == --against ]]; then
            is_value=folder
        elif [[ $word == - || $word != -* ]]; then
            # A dash alone is a word, and no option.
            ((place++))
        fi
    done
    [[ $is_rest || $current =~ ^[:=]+$ ]] && return
    # A PREFIX is the front of a url, and WHO is a word.
    [[ $is_value == url ]] && return
    if [[ ! $is_value && $current == -* ]]; then
        mapfile -t COMPREPLY < <(compgen -W "$options" -- "$current")
        return
    fi

    # All further words of `gather` are folders, and those of `validate-all` are files and folders.
    [[ ${COMP_WORDS[1]} == gather && $place -gt 1 ]] && place=1
    [[ ${COMP_WORDS[1]} == validate-all && $place -gt 2 ]] && place=2
    case ${is_value:-${places[place]-}} in
    folder) mapfile -t COMPREPLY < <(compgen -d -- "$current") ;;
    file) mapfile -t COMPREPLY < <(compgen -f -- "$current") ;;
    *) return ;;
    esac
    # Blanks in names are quoted, and a folder gets its slash.
    compopt -o filenames 2>/dev/null
}

complete -F _fhirprof fhirprof
