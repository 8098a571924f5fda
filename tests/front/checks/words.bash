# What the words of the command line ask for, the statuses, and the man pages.

begin help
run_search -help
wants_status 0
wants_error ''
for option in $(sed -n '/^# bibtex-search /,/^# bibtex-confined /s/^\(-[a-z-]*\).*/\1/p' "$sources/contrib/options.txt"); do
    wants_words "$folder/stdout" "$option"
done
awk 'length > 80' "$folder/stdout" | grep . && complaints+=('a line of the help is longer than 80')
end

begin help_that_cannot_be_printed
for word in -help -version; do
    status=0
    "$search" "$word" >/dev/full 2>"$folder/stderr" || status=$?
    wants_status 6
    wants_error_with bibtex-search
done
end

for words in '-budget 3 job' '--budget 3 job' '-budget=3 job' '--budget=3 job' 'job -budget=3' '-budget=9 job -budget 3' '-budget=3 -- job'; do
    begin "budget_$((passed + failed))"
    run_search $words
    wants_status 4
    wants_text job.bbl ''
    wants_words job.blg 'budget of 3 steps'
    end
done

for words in '-terse job' '--terse job' 'job -terse' '-terse -terse job'; do
    begin "terse_$((passed + failed))"
    run_search $words
    wants_status 0
    wants_output ''
    wants_text job.bbl $'a\n'
    wants_log job.blg "$first_log"
    end
done

# With -terse what went well isn't printed; each message is, and an end before the last command.
begin terse_with_messages
printf '\\citation{k,nosuch}\n\\bibdata{d,e}\n\\bibstyle{s}\n' >job.aux
run_search -terse job
wants_status 2
wants_messages "$folder/stdout" "Error--I couldn't open database file e.bib" "Warning--I didn't find a database entry for \"nosuch\""
! grep -q '^The top-level' "$folder/stdout" || complaints+=('what went well is printed')
[ "$(tail -n 1 "$folder/stdout")" = '(There was 1 error message)' ] || complaints+=("printed was $(cat "$folder/stdout")")
end

begin terse_with_a_warning
cite nosuch
run_search -terse job
wants_status 0
[ "$(tail -n 1 "$folder/stdout")" = '(There was 1 warning)' ] || complaints+=("printed was $(cat "$folder/stdout")")
end

begin terse_stopped
run_search -terse -budget=3 job
wants_status 4
wants_words "$folder/stdout" 'budget of 3 steps'
wants_words "$folder/stdout" 'while executing---line 1 of file s.bst'
[ "$(wc -l <"$folder/stdout")" -eq 2 ] || complaints+=("printed was $(cat "$folder/stdout")")
end

begin terse_and_a_full_output
status=0
LD_LIBRARY_PATH=$libraries "$search" -terse -budget=3 job >/dev/full 2>"$folder/stderr" || status=$?
wants_status 6
wants_error_with 'standard output'
end

# Each option changes what it changes in the program.
for words in '-min-crossrefs=1' '--min-crossrefs 1' '-text=utf8' '-line=20' '-entry-max=3' '-global-max=3'; do
    begin "handed_on_$((passed + failed))"
    case $words in
    *cross*) cp "$examples"/cross_reference/*.{aux,bib,bst} . ;;
    *) cp "$examples"/utf8_names/*.{aux,bib,bst} . ;;
    esac
    option=${words#-}
    "$program" --${option#-} job >/dev/null || true
    mv job.bbl wanted
    messages job.blg >wanted_messages
    # (the program reads text by bytes where nothing else is said)
    run_search -text=bytes $words job
    cmp -s wanted job.bbl || complaints+=("the list is another than with $words")
    messages job.blg | cmp -s - wanted_messages || complaints+=("the messages are others than with $words")
    end
done

begin version
run_search -version
wants_status 0
wants_words "$folder/stdout" "$("$program" --version | sed 's/.* //')"
wants_words "$folder/stdout" bibtex-search
end

begin version_of_each_name
ln -s "$search" bibtex
status=0
LD_LIBRARY_PATH=$libraries ./bibtex -version >"$folder/stdout" 2>"$folder/stderr" || status=$?
wants_status 0
grep -qw bibtex "$folder/stdout" || complaints+=("the version is $(cat "$folder/stdout")")
end

# The page of each program names each option that its help names, and has no fault.
for name in bibtex-search bibtex-confined; do
    page=$(find "$sources" -path "$sources/crates" -prune -o -name "$name.1" -print -quit)
    begin "man_page_of_$name"
    [ -n "$page" ] || complaints+=('there is no page')
    "$programs/$name" --help >help
    for option in $(grep -oE -- '(^|[^A-Za-z0-9-])--?[a-z][a-z-]*' help | sed 's/^[^-]//' | sort -u); do
        grep -qF -- "${option//-/\\-}" "${page:-/dev/null}" || complaints+=("the man page does not name $option")
    done
    if command -v groff >/dev/null; then
        groff -ww -man -Tutf8 "${page:-/dev/null}" >shown 2>warnings || complaints+=('groff does not take the man page')
        wants_text warnings ''
    else
        echo 'left out: warnings of the man page (there is no groff)'
    fi
    end
done

# To explain a job is to run it again, without writing: so its files are needed, and not its log.
begin explained_job_that_is_not_there
run_search -explain-only nosuch
wants_status 3
wants_error_with nosuch.aux
wants_error_with 'no such file'
end
