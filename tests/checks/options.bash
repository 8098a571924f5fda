# What each option changes, byte by byte, and that the ends of its range are taken.

# A value may stand in the next word or after a `=`, options after the job, and a number after a plus.
for words in '--budget 3 job' '--budget=3 job' 'job --budget 3' '--budget=+3 job' '--budget 003 job' '--budget 3 -- job'; do
    begin "words_$((passed + failed))"
    run_program $words
    wants_found 4 '' 'Ended: stopped, warnings 0, errors 0, steps 3'
    end
done

# How often a parent must be named to be listed by itself.
# lists_parents KEYS LIST STEPS WORD..: with these keys cited, and these words, the list has these keys.
lists_parents() {
    begin "min_crossrefs_$((passed + failed))"
    printf '@misc{%s, crossref = {p}}\n' one two >d.bib
    printf '@misc{p}\n' >>d.bib
    use_style 'FUNCTION {f} {cite$ write$ newline$} ITERATE {f}'
    cite "$1"
    run_program "${@:4}" job
    wants_found 0 "$2" "Ended: finished, warnings 0, errors 0, steps $3"
    end
}

lists_parents one,two $'one\ntwo\np\n' 12
lists_parents one,two $'one\ntwo\np\n' 12 --min-crossrefs 2
lists_parents one,two $'one\ntwo\n' 8 --min-crossrefs 3
lists_parents one,two $'one\ntwo\n' 8 --min-crossrefs 2147483647
lists_parents one $'one\n' 4
lists_parents one $'one\np\n' 8 --min-crossrefs 1
lists_parents one $'one\np\n' 8 --min-crossrefs=0

# How many steps a style may take.
begin greatest_budget
run_program --budget 1000000000000000 job
wants_job 0 $'a\n' "$first_log"
end

# Many steps may be taken as well, more than the usual budget has.
begin more_steps_than_the_usual_budget
use_style "INTEGERS {i} FUNCTION {f} {#101000000 'i := {i #0 >} {i #1 - 'i :=} while$} EXECUTE {f}"
run_program --budget 2000000000 job
wants_found 0 '' 'Ended: finished, warnings 0, errors 0, steps 1010000011'
end

# How text is read.
# counts_characters NUMBER WORD..: the title `Élie` has NUMBER characters.
counts_characters() {
    begin "text_$((passed + failed))"
    printf '@misc{k, title = {\xc3\x89lie}}\n' >d.bib
    use_style 'FUNCTION {f} {title text.length$ int.to.str$ write$ newline$} ITERATE {f}'
    run_program "${@:2}" job
    wants_found 0 "$1"$'\n' 'Ended: finished, warnings 0, errors 0, steps 6'
    end
}

counts_characters 5
counts_characters 5 --text bytes
counts_characters 4 --text utf8
counts_characters 4 --text=utf8

# An initial is a whole character only where text is read as UTF-8.
for mode in bytes utf8; do
    begin "initial_in_$mode"
    printf '@misc{k, title = {Cartan, \xc3\x89lie}}\n' >d.bib
    use_style 'FUNCTION {f} {title #1 "{f. }{ll}" format.name$ write$ newline$} ITERATE {f}'
    run_program --text "$mode" job
    initial=$'\xc3'
    [ "$mode" = bytes ] || initial=$'\xc3\x89'
    wants_found 0 "$initial. Cartan"$'\n' 'Ended: finished, warnings 0, errors 0, steps 7'
    end
done

# How long a line is.
# breaks TEXT LIST WORD..: the style writes this text as one line, and the list is this.
breaks() {
    begin "line_$((passed + failed))"
    use_style "FUNCTION {f} {\"$1\" write\$ newline\$} EXECUTE {f}"
    run_program "${@:3}" job
    wants_found 0 "$2" 'Ended: finished, warnings 0, errors 0, steps 4'
    end
}

twenty=$(letters 20 a)
full=$(letters 79 a)
breaks "$twenty b" "$twenty"$'\n  b\n' --line 20
breaks "${twenty}a  b" "${twenty}a"$'\n  b\n' --line 20
breaks "$twenty  b" "$twenty"$'\n   b\n' --line=20
breaks 'aaa bbb ccc ddd eee fff ggg' $'aaa bbb ccc ddd eee\n  fff ggg\n' --line 20
breaks 'aaa bbb ccc ddd eee fff ggg' $'aaa bbb ccc ddd eee fff ggg\n'
breaks "$full" "$full"$'\n'
breaks "$full b" "$full"$'\n  b\n' --line 79
breaks "${full%a} b" "${full%a}"$'\n  b\n'
breaks "$(letters 500 a) $(letters 400 b)" "$(letters 500 a)"$'\n  '"$(letters 400 b)"$'\n' --line 900
breaks "$(letters 500 a) $(letters 400 b)" "$(letters 500 a) $(letters 400 b)"$'\n' --line 901
breaks "$(letters 500 a) $(letters 499 b)" "$(letters 500 a) $(letters 499 b)"$'\n' --line 1000
breaks "$(letters 500 a) $(letters 500 b)" "$(letters 500 a)"$'\n  '"$(letters 500 b)"$'\n' --line 1000

# How many bytes of a string a variable keeps: one of an entry, and a global one.
# keeps TEXT KEPT WARNING VARIABLE COMMAND WORD..: the variable is given this text and has this one then; the warning is logged, if there is one.
keeps() {
    begin "kept_$((passed + failed))"
    use_style "STRINGS {s} FUNCTION {f} {\"$1\" '$4 := $4 write\$ newline\$} $5 {f}"
    run_program "${@:6}" job
    if [ -z "$3" ]; then
        wants_found 0 "$2"$'\n' 'Ended: finished, warnings 0, errors 0, steps 7'
    else
        wants_found 0 "$2"$'\n' "Warning--$3"$'\nEnded: finished, warnings 1, errors 0, steps 7'
    fi
    end
}

cut='cut to 3 while executing :='
long=$(letters 70 b)
keeps abcd abc "string of 4 bytes $cut for entry k" 'sort.key$' ITERATE --entry-max 3
keeps abcd abc "string of 4 bytes $cut" s EXECUTE --global-max 3
keeps abc abc '' 'sort.key$' ITERATE --entry-max=3
keeps abc abc '' s EXECUTE --global-max=3
keeps abcd abcd '' 'sort.key$' ITERATE --global-max 3
keeps abcd abcd '' s EXECUTE --entry-max 3
keeps ab a 'string of 2 bytes cut to 1 while executing := for entry k' 'sort.key$' ITERATE --entry-max 1
keeps ab a 'string of 2 bytes cut to 1 while executing :=' s EXECUTE --global-max 1
keeps "$long" "$long" '' 'sort.key$' ITERATE --entry-max 1000000
keeps "$long" "$long" '' s EXECUTE --global-max 1000000

# limits LENGTH KEPT VARIABLE COMMAND PLACE: of a string of LENGTH bytes, which nothing breaks, KEPT are kept without an option.
limits() {
    begin "usual_limit_$((passed + failed))"
    use_style "STRINGS {s} FUNCTION {f} {\"$(letters "$1" b)\" '$3 := $3 write\$ newline\$} $4 {f}"
    run_program job
    wants_found 0 "$(letters "$2" b)"$'\n' \
        "Warning--string of $1 bytes cut to $2 while executing :=$5"$'\nEnded: finished, warnings 1, errors 0, steps 7'
    end
}

limits 251 250 'sort.key$' ITERATE ' for entry k'
limits 20001 20000 s EXECUTE ''

# The two integers begin with the numbers that are given.
begin integers_of_the_limits
use_style 'FUNCTION {f} {entry.max$ int.to.str$ write$ newline$ global.max$ int.to.str$ write$ newline$} EXECUTE {f}'
run_program --entry-max 7 --global-max 1000000 job
wants_found 0 $'7\n1000000\n' 'Ended: finished, warnings 0, errors 0, steps 9'
end

# The log isn't printed; its file is the same.
# is_terse STATUS LIST LOG WORD..: a run with these words, and --terse.
is_terse() {
    run_program --terse "${@:4}"
    wants_status "$1"
    wants_output ''
    wants_error ''
    wants_text job.bbl "$2"
    wants_text job.blg "$3"
    wants_files d.bib job.aux job.bbl job.blg s.bst
}

begin terse
is_terse 0 $'a\n' "$first_log" job
end

begin terse_and_stopped
is_terse 4 '' "${found_log}Ended: stopped, warnings 0, errors 0, steps 1"$'\n' --budget 1 job
end

begin terse_with_errors
printf '@misc{k, title = {T}, title}\n' >d.bib
is_terse 2 $'a\n' "${found_log}Error--I was expecting an =--line 1 of file d.bib
Ended: finished, warnings 0, errors 1, steps 4
" job
end

# A log that isn't printed can't fail on standard output; a fault is reported all the same.
begin terse_without_an_output
status=0
timeout 60 "$program" --terse job </dev/null >/dev/full 2>"$folder/stderr" || status=$?
wants_status 0
wants_error ''
wants_text job.blg "$first_log"
end

begin terse_and_a_fault
ln -s /dev/full job.bbl
run_program --terse job
wants_status 6
wants_output ''
wants_error $'bibtex: device error\n'
wants_text job.blg "$found_log"
end

# All options at once.
begin all_options
use_style 'FUNCTION {f} {"aaa bbb ccc ddd eee fff" write$ newline$ "abcd" '"'sort.key\$"' := title text.length$ int.to.str$ write$} ITERATE {f}'
printf '@misc{k, title = {\xc3\x89lie}}\n' >d.bib
cd ..
run_program --min-crossrefs 1 --budget 12 --dir work --terse --text utf8 --line 20 --entry-max 3 --global-max 3 job
cd work
wants_status 0
wants_output ''
wants_text job.bbl $'aaa bbb ccc ddd eee\n  fff\n4\n'
wants_text job.blg "${found_log}Warning--string of 4 bytes cut to 3 while executing := for entry k
Ended: finished, warnings 1, errors 0, steps 11
"
end
