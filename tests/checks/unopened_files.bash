# A file that can't be opened isn't there, whatever the reason: the log has a message, the run goes on without it, and the status is 2.

compile_failures

# include_file: the first line of the job's .aux file includes another one.
include_file() {
    printf '\\citation{nosuch}\n' >c.aux
    {
        printf '\\@input{c.aux}\n'
        cat "$examples/first/job.aux"
    } >job.aux
}

# wants_run_without FILE: what the run gives where this file isn't there.
wants_run_without() {
    case $1 in
    d.bib)
        wants_job 2 $'a\n' "${found_log%Database*}Error--I couldn't open database file d.bib
Warning--I didn't find a database entry for \"k\"
Ended: finished, warnings 1, errors 1, steps 4
"
        ;;
    s.bst)
        wants_job 2 '' "${found_log%The style*}Error--I couldn't open style file s.bst
Ended: finished, warnings 0, errors 1, steps 0
"
        ;;
    c.aux)
        wants_job 2 $'a\n' "The top-level auxiliary file: job.aux
Error--I couldn't open auxiliary file c.aux--line 1 of file job.aux
The style file: s.bst
Database file #1: d.bib
Ended: finished, warnings 0, errors 1, steps 4
"
        ;;
    job.aux) wants_job 3 '' $'Ended: no top file, warnings 0, errors 0, steps 0\n' ;;
    esac
}

# The file leads to another, and that one back.
lose_by_links_in_a_circle() {
    ln -s back "$1"
    ln -s "$1" back
}

# The path leads through a file that is no folder.
lose_by_a_path_through_a_file() {
    : >file
    ln -s "file/$1" "$1"
}

# The path has a longer name than the system takes.
lose_by_a_long_name() {
    ln -s "$(letters 300 n)" "$1"
}

# A socket is a file that can't be opened: there is no such device.
lose_by_a_socket() {
    python3 -c 'import socket, sys; socket.socket(socket.AF_UNIX).bind(sys.argv[1])' "$1"
}

for cause in links_in_a_circle a_path_through_a_file a_long_name a_socket; do
    for file in d.bib s.bst c.aux job.aux; do
        begin "${file//./_}_lost_by_$cause"
        [ "$file" != c.aux ] || include_file
        rm "$file"
        "lose_by_$cause" "$file"
        run_program job
        wants_run_without "$file"
        end
    done
done

# A device that fails, or goes away, while the job runs; a network folder that another machine changed; no descriptor left; a file that may not be read.
for reason in EIO ENXIO ENODEV ESTALE EMFILE ENFILE EACCES EPERM; do
    for file in d.bib s.bst c.aux job.aux; do
        begin "${file//./_}_lost_by_$reason"
        [ "$file" != c.aux ] || include_file
        run_failing "$reason" "$file"
        wants_run_without "$file"
        end
    done
done

# The same for each error number of the system but for those of a signal (EINTR), which is tried again, and of want of memory (ENOMEM).
error_numbers=$(python3 -c 'import errno; print(*sorted(set(errno.errorcode) - {errno.EINTR, errno.ENOMEM}))')

begin lost_by_each_error
for number in $error_numbers; do
    run_failing "$number" d.bib
    before=${#complaints[@]}
    wants_run_without d.bib
    [ ${#complaints[@]} -eq "$before" ] || complaints+=("so at error $number")
done
end

# failing_by_each_error NAME OUTPUT VARIABLE..: with these variables, and each of these errors, a device's fault ends the run.
failing_by_each_error() {
    begin "$1"
    for number in $error_numbers; do
        run_with "${@:3}" FAIL_REASON="$number"
        before=${#complaints[@]}
        wants_status 6
        wants_output "$2"
        wants_error $'bibtex: device error\n'
        [ ${#complaints[@]} -eq "$before" ] || complaints+=("so at error $number")
    done
    end
}

failing_by_each_error list_fails_by_each_error '' FAIL_OPEN=job.bbl
failing_by_each_error log_fails_by_each_error "$first_log" FAIL_OPEN=job.blg
failing_by_each_error reading_fails_by_each_error '' FAIL_READ=each
# What is an invalid input to the system (EINVAL) has no length: it is taken for emptied.
error_numbers=$(printf '%s\n' $error_numbers | grep -vx 22 | tr '\n' ' ')
failing_by_each_error emptying_fails_by_each_error "$found_log" FAIL_EMPTY=yes
failing_by_each_error writing_fails_by_each_error "$found_log" FAIL_WRITE=first

# Files are opened for reading alone, and outputs for writing alone: nothing else need be allowed.
for file in d.bib s.bst job.aux; do
    begin "${file//./_}_may_only_be_read"
    FAIL_ACCESS=write run_failing EROFS "$file"
    wants_job 0 $'a\n' "$first_log"
    end
done
for file in job.bbl job.blg; do
    begin "${file//./_}_may_only_be_written"
    printf 'old\n' >"$file"
    FAIL_ACCESS=read run_failing EACCES "$file"
    wants_job 0 $'a\n' "$first_log"
    end
done

# Where memory is refused for the opening, that is a fault: nothing is said of the file.
for file in d.bib s.bst c.aux job.aux; do
    begin "memory_refused_for_opening_${file//./_}"
    [ "$file" != c.aux ] || include_file
    run_failing ENOMEM "$file"
    wants_status 5
    wants_error $'bibtex: out of memory\n'
    ! grep -q "couldn't open\|Ended" job.blg "$folder/stdout" || complaints+=("the log is $(cat job.blg)")
    wants_text job.bbl ''
    end
done

# A list without one of its databases: the rest of it is written, and the status shows that it isn't whole.
begin second_database_lost
printf '%s\n' '\citation{k,l}' '\bibdata{d,e}' '\bibstyle{s}' >job.aux
printf '@misc{l, title = {U}}\n' >e.bib
use_style 'FUNCTION {f} {cite$ write$ title empty$ {} {title write$} if$ newline$} ITERATE {f}'
run_failing EIO nosuch.bib
wants_status 0
wants_text job.bbl $'kT\nlU\n'
run_failing EIO e.bib
wants_status 2
wants_error ''
wants_text job.bbl $'kT\n'
grep -qx "Error--I couldn't open database file e.bib" job.blg || complaints+=("the log is $(cat job.blg)")
end

# One file descriptor fewer than the job needs: the list is created, and the top file can't be opened.
begin too_few_descriptors
for ((descriptors = 40; descriptors > 3; descriptors--)); do
    rm -f job.bbl job.blg
    status=0
    timeout 60 sh -c 'ulimit -n "$0" && exec "$@"' "$descriptors" "$program" job </dev/null >"$folder/stdout" 2>"$folder/stderr" || status=$?
    [ "$status" -eq 0 ] || break
done
wants_run_without job.aux
end
