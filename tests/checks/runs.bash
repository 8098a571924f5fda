# Jobs that run to an end.

# wants_first_run: what the first example gives.
wants_first_run() {
    wants_status 0
    wants_output "$first_log"
    wants_error ''
    wants_text job.bbl $'a\n'
    wants_text job.blg "$first_log"
    wants_files d.bib job.aux job.bbl job.blg s.bst
}

begin finished
run_program job
wants_first_run
end

begin with_the_ending
run_program job.aux
wants_first_run
end

# Files are found after links.
begin behind_links
mkdir kept
mv d.bib job.aux s.bst kept
ln -s kept/* .
run_program job
wants_status 0
wants_output "$first_log"
wants_text job.bbl $'a\n'
end

# Outputs of an earlier run are replaced whole.
begin again
printf 'something longer than what is written now\n' | tee job.bbl >job.blg
run_program job
wants_first_run
end

begin exact_budget
run_program --budget 4 job
wants_first_run
end

for name in work ./work work/ "$PWD"; do
    begin "in_a_folder_$((passed + failed))"
    cd ..
    [[ $name != /* ]] || name=$PWD/work
    run_program --dir "$name" job
    cd work
    wants_first_run
    end
done

# Only a last `.aux` isn't of the name of the outputs.
begin ending_twice
mv job.aux job.aux.aux
run_program job.aux.aux
wants_status 0
wants_output "${first_log/job.aux/job.aux.aux}"
wants_error ''
wants_text job.aux.bbl $'a\n'
wants_text job.aux.blg "${first_log/job.aux/job.aux.aux}"
wants_files d.bib job.aux.aux job.aux.bbl job.aux.blg s.bst
end

begin ending_alone
mv job.aux .aux
run_program .aux
wants_status 0
wants_output "${first_log/job.aux/.aux}"
wants_error ''
wants_text .bbl $'a\n'
wants_text .blg "${first_log/job.aux/.aux}"
end

# After `--` a job may begin with a hyphen; and its name may lead into a folder.
begin job_with_a_hyphen_in_front
mv -- job.aux -terse.aux
run_program -- -terse
wants_status 0
wants_output "${first_log/job.aux/-terse.aux}"
wants_text ./-terse.bbl $'a\n'
end

begin job_in_a_folder_below
mkdir sub
mv job.aux sub
run_program sub/job
wants_status 0
wants_output "${first_log/job.aux/sub/job.aux}"
wants_text sub/job.bbl $'a\n'
wants_text sub/job.blg "${first_log/job.aux/sub/job.aux}"
end

# Only these four letters in small are the ending.
for ending in AUX bbl tex bib au; do
    begin "ending_in_$ending"
    mv job.aux "job.$ending.aux"
    run_program "job.$ending"
    wants_status 0
    wants_output "${first_log/job.aux/job.$ending.aux}"
    wants_text "job.$ending.bbl" $'a\n'
    end
done

# Each file stands in the folder, whatever it is called: a name with a `/` in front leads nowhere else.
begin name_with_a_slash_in_front
mv d.bib e.bib
printf '\\citation{k}\n\\bibdata{%s/e}\n\\bibstyle{s}\n' "$PWD" >job.aux
run_program job
wants_status 2
grep -qx "Error--I couldn't open database file $PWD/e.bib" job.blg || complaints+=("the log is $(cat job.blg)")
end

# An empty folder is the root folder.
begin empty_folder
mv job.aux "$folder"
run_program --dir '' "${folder#/}/job"
wants_status 2
wants_text "$folder/job.bbl" ''
grep -qx "The top-level auxiliary file: ${folder#/}/job.aux" "$folder/job.blg" || complaints+=("the log is $(cat "$folder/job.blg")")
end

# White at the ends of a path is a part of it.
begin folder_with_white_at_its_ends
cd ..
mv work ' work '
run_program --dir ' work ' job
mv ' work ' work
cd work
wants_first_run
end

for budget in 0 2 3; do
    begin "stopped_at_$budget"
    run_program --budget "$budget" job
    stopped=${first_log/finished/stopped}
    stopped=${stopped/steps 4/steps $budget}
    wants_status 4
    wants_output "$stopped"
    wants_error ''
    wants_text job.bbl ''
    wants_text job.blg "$stopped"
    wants_files d.bib job.aux job.bbl job.blg s.bst
    end
done

no_top_file=$'Ended: no top file, warnings 0, errors 0, steps 0\n'

begin no_top_file
rm job.aux
run_program job
wants_status 3
wants_output "$no_top_file"
wants_error ''
wants_text job.bbl ''
wants_text job.blg "$no_top_file"
wants_files d.bib job.bbl job.blg s.bst
end

# A top file without a byte is read: it names nothing.
begin empty_top_file
: >job.aux
run_program job
empty_log='The top-level auxiliary file: job.aux
Error--I found no \citation commands
Error--I found no \bibdata command
Error--I found no \bibstyle command
Ended: finished, warnings 0, errors 3, steps 0
'
wants_status 2
wants_output "$empty_log"
wants_error ''
wants_text job.bbl ''
wants_text job.blg "$empty_log"
wants_files d.bib job.aux job.bbl job.blg s.bst
end

# A link that leads to itself can't be opened: there is no such file.
begin top_file_that_cannot_be_opened
rm job.aux
ln -s job.aux job.aux
run_program job
wants_status 3
wants_output "$no_top_file"
wants_error ''
end

# A file is read to its last byte, however long it is: what matters comes after more than 64 KiB.
begin long_top_file
{
    printf '\\relax\n%.0s' {1..15000}
    cat "$examples/first/job.aux"
} >job.aux
run_program job
wants_first_run
end

begin long_style
{
    printf '\n%.0s' {1..100000}
    printf 'EXECUTE {f}\n'
} >>s.bst
run_program job
twice=${first_log/steps 4/steps 8}
wants_status 0
wants_output "$twice"
wants_error ''
wants_text job.bbl $'a\na\n'
wants_text job.blg "$twice"
end

begin long_database
{
    printf '@misc{k, title = {'
    printf 'T%.0s' {1..100000}
    printf '}}\n'
} >d.bib
run_program job
wants_first_run
end

# A name may be longer than any that the system takes: there is no such file.
begin long_name_of_a_file
long_name=$(printf 'n%.0s' {1..300})
{
    printf '\\@input{%s.aux}\n' "$long_name"
    cat "$examples/first/job.aux"
} >job.aux
run_program job
long_log="The top-level auxiliary file: job.aux
Error--I couldn't open auxiliary file $long_name.aux--line 1 of file job.aux
The style file: s.bst
Database file #1: d.bib
Ended: finished, warnings 0, errors 1, steps 4
"
wants_status 2
wants_output "$long_log"
wants_error ''
wants_text job.bbl $'a\n'
wants_text job.blg "$long_log"
end
