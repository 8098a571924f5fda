# What becomes of the files that an earlier run left.

old_list='a list of an earlier run, longer than the new one
'
no_top_file_log=$'Ended: no top file, warnings 0, errors 0, steps 0\n'
old_log='a log of an earlier run, with its last line
Ended: finished, warnings 0, errors 0, steps 4711
'

compile_failures

# leave_old_files: an earlier run left a list and a log.
leave_old_files() {
    printf '%s' "$old_list" >job.bbl
    printf '%s' "$old_log" >job.blg
}

# There is no top file: the old list stays, and the log says why.
begin old_list_without_a_top_file
leave_old_files
rm job.aux
run_program job
wants_status 3
wants_error ''
wants_text job.bbl "$old_list"
wants_text job.blg "$no_top_file_log"
wants_output "$no_top_file_log"
end

# The list is written anew from its first byte.
begin old_list_behind_a_new_one
leave_old_files
run_program job
wants_job 0 $'a\n' "$first_log"
end

# goes STATUS WORD..: the job writes nothing of a list, and the old one is gone all the same.
goes() {
    run_program "${@:2}" job
    wants_status "$1"
    wants_text job.bbl ''
    end
}

begin old_list_of_a_style_that_writes_nothing
leave_old_files
use_style ''
goes 0

begin old_list_without_a_style
leave_old_files
rm s.bst
goes 2

begin old_list_of_a_stopped_run
leave_old_files
goes 4 --budget 0

# Memory is refused before anything is written.
begin old_list_goes_where_memory_is_refused
leave_old_files
run_failing ENOMEM s.bst
wants_status 5
wants_text job.bbl ''
end

# What leads to an old list by a link is emptied and written there.
begin old_list_behind_a_link
printf '%s' "$old_list" >kept.bbl
ln -s kept.bbl job.bbl
run_program job
wants_status 0
wants_text kept.bbl $'a\n'
[ -L job.bbl ] || complaints+=('the link was replaced')
end

begin old_list_of_a_run_that_meets_a_limit
leave_old_files
use_style 'FUNCTION {f} {{#1} {#7} while$} EXECUTE {f}'
goes 3

# A database can be opened and not be read.
begin old_list_goes_at_a_fault
leave_old_files
rm d.bib
mkdir d.bib
goes 6

# The device doesn't empty the list's file: nothing is written over what an earlier run left, and that is a device error, also at the end of a
# run that writes nothing.
begin old_list_that_cannot_be_emptied
leave_old_files
run_with FAIL_REASON=EIO FAIL_EMPTY=yes
wants_status 6
wants_error $'bibtex: device error\n'
wants_output "$found_log"
wants_text job.blg "$found_log"
wants_text job.bbl "$old_list"
end

begin old_list_that_cannot_be_emptied_at_the_end
leave_old_files
use_style ''
run_with FAIL_REASON=EIO FAIL_EMPTY=yes
wants_status 6
wants_error $'bibtex: device error\n'
wants_output "${found_log}Ended: finished, warnings 0, errors 0, steps 0
"
wants_text job.bbl "$old_list"
end

begin modes_of_the_outputs
keeps_modes run_program
end

# An old list may be a pipe or a device: these have nothing to throw away.
begin old_list_that_is_a_device
ln -s /dev/null job.bbl
run_program job
wants_status 0
wants_output "$first_log"
wants_text job.blg "$first_log"
end

begin old_list_that_is_a_pipe
mkfifo job.bbl
cat job.bbl >"$folder/piped" &
run_program job
wait $!
wants_status 0
wants_text "$folder/piped" $'a\n'
end

# A pipe or a device in the log's place isn't opened before the log is written: what reads the pipe gets the whole log, however long the run takes.
begin old_log_that_is_a_pipe
mkfifo job.blg
use_style 'FUNCTION {f} {{#1} {} while$} EXECUTE {f}'
timeout 90 cat job.blg >"$folder/piped" &
run_program --budget 10000000 job
wait $! || true
wants_status 4
wants_text job.bbl ''
wants_text "$folder/piped" "${found_log}Ended: stopped, warnings 0, errors 0, steps 10000000
"
end

begin old_log_that_is_a_device
ln -s /dev/null job.blg
run_program job
wants_status 0
wants_output "$first_log"
wants_text job.bbl $'a\n'
end

# What leads to an old log by a link is emptied there.
begin old_log_behind_a_link
printf '%s' "$old_log" >kept.blg
ln -s kept.blg job.blg
run_program job
wants_status 0
wants_text kept.blg "$first_log"
[ -L job.blg ] || complaints+=('the link was replaced')
end

# The list can't be opened: what an earlier run left stays, its log too.
begin old_log_beside_a_list_that_cannot_be_opened
leave_old_files
rm job.bbl
mkdir job.bbl
run_program job
wants_status 6
wants_text job.blg "$old_log"
end

# kill_while_it_writes: runs a job that writes lines without end, and kills it when the list has some of them.
kill_while_it_writes() {
    use_style 'FUNCTION {f} {{#1} {"a" write$ newline$} while$} EXECUTE {f}'
    "$program" --budget 1000000000000 job </dev/null >/dev/null 2>&1 &
    for _ in $(seq 100); do
        [ "$(head -c 1 job.bbl 2>/dev/null)" = a ] && [ "$(stat -c %s job.bbl)" -gt 100 ] && break
        sleep 0.05
    done
    kill -KILL $!
    wait $! 2>/dev/null || true
}

# The run is killed while it writes: no old log stands beside the new list, be it after a link.
begin no_old_log_behind_a_link
leave_old_files
mv job.blg kept.blg
ln -s kept.blg job.blg
kill_while_it_writes
wants_text kept.blg ''
end

begin no_old_log_beside_a_new_list
leave_old_files
kill_while_it_writes
wants_text job.blg ''
[ "$(head -c 2 job.bbl)" = a ] || complaints+=('the list is not begun anew')
end

# An old log that can't be emptied, being a folder: nothing is said of it until the log is written.
begin old_log_that_cannot_be_emptied
mkdir job.blg
run_program job
wants_status 6
wants_output "$first_log"
wants_error $'bibtex: device error\n'
wants_text job.bbl $'a\n'
end

# In a fresh folder a log isn't made before the run ends.
begin no_log_before_the_end
kill_while_it_writes
wants_files d.bib job.aux job.bbl s.bst
end

# Both outputs are one file, and the list is longer than the log, which is written last: no rest of the list stands after it.
begin list_and_log_in_one_file
use_style "FUNCTION {f} {$(printf '"%s" write$ newline$ ' {a..z}{0..99})} EXECUTE {f}"
run_program job
mv job.blg wanted.blg
: >job.bbl
ln job.bbl job.blg
run_program job
wants_status 0
wants_text job.blg "$(cat wanted.blg)"$'\n'
end
