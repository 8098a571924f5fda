# Completion in bash for bibtex-search, bibtex-confined, bibtex-lint and bibtex-proved: options, their values, jobs and styles. By contrib/options.

# _bibtex_options COMMAND: the names of its options, those with a value with a `=` after them.
_bibtex_options() {
    case $1 in
    bibtex-search) echo 'min-crossrefs= terse strict explain no-explain explain-only json budget= text= letters= line= entry-max= global-max= log-room= list-room= help version' ;;
    bibtex-confined) echo 'min-crossrefs= text= line= entry-max= global-max= limit-memory= limit-aux= limit-input= limit-output= limit-processor= limit-clock= limit-steps= limit-names= help version' ;;
    bibtex-lint) echo 'line json entry job trace function steps= help version' ;;
    *) echo 'min-crossrefs= budget= dir= terse text= line= entry-max= global-max= help version' ;;
    esac
}

# _bibtex_values COMMAND OPTION: the words that are offered for its value; */ and *.aux stand for folders and jobs.
_bibtex_values() {
    case $1:$2 in
    bibtex-search:text) echo 'auto bytes utf8' ;;
    bibtex-search:letters) echo 'no plain de de-phonebook en es fr it nl pt pl cs sk hu sv da nb fi tr hr' ;;
    bibtex-confined:text) echo 'bytes utf8' ;;
    bibtex-lint:job) echo '*.aux' ;;
    *:dir) echo '*/' ;;
    *:text) echo 'bytes utf8' ;;
    esac
}

# _bibtex_option_at_cursor: the name of the option whose value is written, if it is one. (bash cuts words at a `=`.)
_bibtex_option_at_cursor() {
    local at=$COMP_CWORD
    [ "${COMP_WORDS[at]}" = = ] || at=$((at - 1))
    [ "${COMP_WORDS[at]}" != = ] || at=$((at - 1))
    case ${COMP_WORDS[at]} in
    --*) echo "${COMP_WORDS[at]#--}" ;;
    -*) echo "${COMP_WORDS[at]#-}" ;;
    esac
}

# _bibtex_complete KIND WORD [WORDS]: completes a word to files or folders, or to one of the words.
_bibtex_complete() {
    case $1 in
    jobs)
        compopt -o filenames
        mapfile -t COMPREPLY < <(compgen -f -X '!*.aux' -- "$2"; compgen -d -- "$2")
        ;;
    styles)
        compopt -o filenames
        mapfile -t COMPREPLY < <(compgen -f -X '!*.bst' -- "$2"; compgen -f -X '!*.bib' -- "$2"; compgen -d -- "$2")
        ;;
    folders)
        compopt -o filenames
        mapfile -t COMPREPLY < <(compgen -d -- "$2")
        ;;
    words)
        mapfile -t COMPREPLY < <(compgen -W "$3" -- "$2")
        [[ ${#COMPREPLY[@]} -ne 1 || ${COMPREPLY[0]} != *= ]] || compopt -o nospace
        ;;
    esac
}

_bibtex() {
    local command=${1##*/} word=${COMP_WORDS[COMP_CWORD]} option options values hyphens=--
    [ "$word" != = ] || word=
    COMPREPLY=()
    option=$(_bibtex_option_at_cursor)
    options=$(_bibtex_options "$command")
    values=$(_bibtex_values "$command" "$option")
    [[ " $options " = *" $option= "* || -n $values ]] || option=
    [[ $command != bibtex-search || $word = --* ]] || hyphens=-
    case $option:$values:$word in
    ?*:\*/:*) _bibtex_complete folders "$word" ;;
    ?*:\*.aux:*) _bibtex_complete jobs "$word" ;;
    ?*:?*:*) _bibtex_complete words "$word" "$values" ;;
    ?*::*) ;;
    ::-*) _bibtex_complete words "$word" "$hyphens${options// / $hyphens}" ;;
    *)
        if [ "$command" = bibtex-lint ]; then
            _bibtex_complete styles "$word"
        else
            _bibtex_complete jobs "$word"
        fi
        ;;
    esac
}

complete -F _bibtex bibtex-search bibtex-confined bibtex-lint bibtex-proved
