# Command lines that aren't run: no file is made.

# refuses NAME TEXT WORD..: these words are refused, with this text on standard error.
refuses() {
    begin "refused_$1"
    run_program "${@:3}"
    wants_status 1
    wants_output ''
    wants_error_with "$2"
    wants_files d.bib job.aux s.bst
    end
}

# An option of the original with its one hyphen, also one with a value after it: a line after the library's text says how it is spelt here.
hint="bibtex: options have two hyphens here, as in '--min-crossrefs'; the script bibtex-search takes the original's"

# is_hinted YES_OR_NO WORD..: these words are refused, and that line is printed last, or not at all.
is_hinted() {
    begin "hint_for_$(printf '%s' "${@:2}" | tr -c 'a-z0-9\n' _)"
    run_program "${@:2}"
    wants_status 1
    wants_output ''
    wants_error_with "error: "
    if [ "$1" = yes ]; then
        [ "$(tail -n 1 "$folder/stderr")" = "$hint" ] || complaints+=('the last line is no hint')
    elif grep -qF "$hint" "$folder/stderr"; then
        complaints+=('there is a hint')
    fi
    end
}

is_hinted yes -terse job
is_hinted yes -min-crossrefs=3 job
is_hinted yes -min-crossrefs 3 job
is_hinted yes -version
is_hinted yes job -terse
is_hinted no --nope job
is_hinted no -x job
is_hinted no -ters job
is_hinted no --nope job-terse
is_hinted yes --nope -version
is_hinted no -min-crossref job
is_hinted no -versio
is_hinted no --terse=yes job
is_hinted no --nope -- -terse
is_hinted no

refuses no_job 'required arguments were not provided'
refuses two_jobs "unexpected argument 'other'" job other
refuses unknown_option "unexpected argument '--nope'" --nope job
refuses one_hyphen "unexpected argument '-t'" -terse job
refuses one_hyphen_and_value "unexpected argument '-m'" -min-crossrefs=3 job
refuses terse_with_a_value "unexpected value 'yes'" --terse=yes job
refuses bytes_that_are_no_text 'invalid UTF-8' $'\xff'

# says TEXT WORD..: these words are refused, and this text is all that is said.
says() {
    begin "mistake_$((passed + failed))"
    run_program "${@:2}"
    wants_status 1
    wants_output ''
    wants_error "$1"
    end
}

more=$'\nFor more information, try \'--help\'.\n'
says $'error: unexpected argument \'--nope\' found\n\n  tip: to pass \'--nope\' as a value, use \'-- --nope\'\n\nUsage: bibtex [OPTIONS] <JOB>\n'"$more" --nope job
says $'error: the following required arguments were not provided:\n  <JOB>\n\nUsage: bibtex <JOB>\n'"$more"
says $'error: invalid value \'19\' for \'--line <N>\': 19 is not in 20..=1000\n'"$more" --line 19 job
says $'error: invalid UTF-8 was detected in one or more arguments\n' $'\xff'
says $'error: unexpected argument \'-t\' found\n\n  tip: to pass \'-t\' as a value, use \'-- -t\'\n\nUsage: bibtex [OPTIONS] <JOB>\n'"$more$hint"$'\n' -terse job

# Each option of a number is refused one past the ends of its range, where it is no number, without a value, and twice.
# refuses_numbers OPTION LEAST GREATEST
refuses_numbers() {
    refuses "$1_past_its_range" "$(($3 + 1)) is not in $2..=$3" "--$1" "$(($3 + 1))" job
    if [ "$2" -gt 0 ]; then
        refuses "$1_below_its_range" "$(($2 - 1)) is not in $2..=$3" "--$1" "$(($2 - 1))" job
    else
        refuses "$1_below_its_range" "invalid value '-1'" "--$1=-1" job
    fi
    refuses "$1_of_letters" "invalid value 'x'" "--$1" x job
    refuses "$1_without_a_value" 'a value is required' job "--$1"
    refuses "$1_twice" 'cannot be used multiple times' "--$1" "$3" "--$1" "$3" job
}

refuses_numbers min-crossrefs 0 2147483647
refuses_numbers budget 0 1000000000000000
refuses_numbers line 20 1000
refuses_numbers entry-max 1 1000000
refuses_numbers global-max 1 1000000

refuses text_of_another_word "invalid value 'latin1'" --text latin1 job
refuses text_in_capitals "invalid value 'UTF8'" --text UTF8 job
refuses text_twice 'cannot be used multiple times' --text bytes --text utf8 job
refuses folder_twice 'cannot be used multiple times' --dir . --dir . job
refuses terse_twice 'cannot be used multiple times' --terse --terse job

# Help says what the program does, what each word means with its default, and the statuses: byte by byte.
begin help
run_program --help
wants_status 0
wants_error ''
wants_files d.bib job.aux s.bst
cmp -s "$here/checks/help.txt" "$folder/stdout" || complaints+=("the help is another: $(diff "$here/checks/help.txt" "$folder/stdout")")
cp "$folder/stdout" "$folder/help"
run_program -h
wants_status 0
cmp -s "$folder/help" "$folder/stdout" || complaints+=('-h prints something else than --help')
end

# The version is a line with the program's name and the number of the last release; a job beside it isn't run.
for word in --version -V; do
    begin "version_by_$word"
    run_program "$word" job
    wants_status 0
    wants_error ''
    wants_files d.bib job.aux s.bst
    wants_output "bibtex $(grep -om 1 '^## [0-9][0-9.]*' "$here/../CHANGELOG.md" | cut -c 4-)"$'\n'
    end
done
