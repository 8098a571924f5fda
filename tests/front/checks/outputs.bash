# Nothing of an old list or log is lost: whatever can't be read or written, both stand as they were, and one sentence says what and where.

# wants_said EXPRESSION..: standard error has one line of the front end's own for it, like each of these.
wants_said() {
    local expression
    for expression in "$@"; do
        wants_error_like "$expression"
    done
    [ "$(grep -c '^[a-z-]*: ' "$folder/stderr")" -eq 1 ] || complaints+=("standard error is $(printf '%q' "$(cat "$folder/stderr")")")
}

begin old_outputs_without_a_job
rm job.aux
leave_old
run_search job
wants_status 3
wants_said 'job\.aux' '[Nn]o such file'
wants_old
end

begin old_outputs_without_a_folder
run_search nosuch/job
wants_status 3
wants_said 'nosuch/job\.aux' '[Nn]o such file'
[ ! -e nosuch ] || complaints+=('the folder was made')
end

# put KIND FILE: in the place of the file stands something else.
put() {
    rm -f "$2"
    case $1 in
    folder) mkdir "$2" ;;
    pipe) mkfifo "$2" ;;
    socket) python3 -c 'import socket, sys; socket.socket(socket.AF_UNIX).bind(sys.argv[1])' "$2" ;;
    device) ln -s /dev/null "$2" ;;
    full) ln -s /dev/full "$2" ;;
    endless) ln -s /dev/zero "$2" ;;
    nowhere) ln -s nosuch/file "$2" ;;
    circle) ln -s "$2" "$2" ;;
    below_a_file) ln -s "s.bst/$2" "$2" ;;
    esac
}

for kind in folder pipe socket endless circle below_a_file nowhere; do
    begin "${kind}_as_job"
    leave_old
    put $kind job.aux
    seconds=10
    run_search job
    wants_status 3
    wants_said 'job\.aux'
    wants_old
    end
done

# An output that can't be written: the other one stays as it was.
for kind in folder socket full circle below_a_file nowhere; do
    for output in bbl blg; do
        begin "${kind}_as_$output"
        leave_old
        put $kind "job.$output"
        run_search job
        wants_status 6
        wants_said "job\\.$output"
        case $kind.$output in
        # (that a device takes no byte is seen only when it is written, and the log is written first)
        full.bbl) wants_log job.blg "$first_log" ;;
        *.bbl) wants_text job.blg $'old log\n' ;;
        *.blg) wants_text job.bbl $'old list\n' ;;
        esac
        wants_clean
        end
    done
done

# What takes each byte is written: a pipe that is read, and a device that keeps nothing.
begin device_as_list
put device job.bbl
run_search job
wants_status 0
wants_log job.blg "$first_log"
end

begin pipe_as_list
put pipe job.bbl
cat job.bbl >piped &
run_search job
wait $!
wants_status 0
wants_text piped $'a\n'
end

begin pipe_as_log
put pipe job.blg
cat job.blg >piped &
run_search job
wait $!
wants_status 0
wants_log piped "$first_log"
end

# A style or a database of another kind isn't there: that is an error of the document, and its reason is said.
for kind in folder socket circle below_a_file nowhere; do
    for file in s.bst d.bib; do
        begin "${kind}_as_${file//./_}"
        put $kind "$file"
        run_search job
        wants_status 2
        wants_words job.blg "I couldn't open $([ $file = s.bst ] && echo style || echo database) file $file"
        wants_clean
        end
    done
done

# Nothing waits for a pipe or reads a device without end.
for kind in pipe endless; do
    for file in s.bst d.bib one.aux; do
        begin "${kind}_as_${file//./_}"
        printf '\\@input{one.aux}\n\\citation{k}\n\\bibdata{d}\n\\bibstyle{s}\n' >job.aux
        : >one.aux
        put $kind "$file"
        leave_old
        seconds=10
        run_search job
        [ "$status" -ne 0 ] && [ "$status" -ne 124 ] || complaints+=("the exit status is $status")
        wants_clean
        end
    done
done
seconds=60

# A new job whose log can't be written leaves no empty list, which LaTeX would take for one.
begin new_list_beside_a_log_that_cannot_be_written
put full job.blg
run_search job
wants_status 6
wants_files d.bib job.aux job.blg s.bst
end

# What another user may not read or write.
if another_user; then
    begin folder_of_another
    leave_old
    run_as_another job
    wants_status 6
    wants_said 'job\.b[bl][lg]' 'Permission denied'
    wants_old
    end

    for output in bbl blg; do
        begin "${output}_of_another"
        leave_old
        chmod 777 .
        chmod 666 job.bbl job.blg
        chmod 644 "job.$output"
        run_as_another job
        wants_status 6
        wants_said "job\\.$output" 'Permission denied'
        wants_old
        end
    done

    begin new_outputs_in_a_folder_of_another
    run_as_another job
    wants_status 6
    wants_said 'job\.b[bl][lg]' 'Permission denied'
    wants_files d.bib job.aux s.bst
    end

    begin job_of_another
    chmod 777 .
    leave_old
    chmod 666 job.bbl job.blg
    chmod 600 job.aux
    run_as_another job
    wants_status 3
    wants_said 'job\.aux' 'Permission denied'
    wants_old
    end

    for file in s.bst d.bib; do
        begin "${file//./_}_of_another"
        chmod 777 .
        leave_old
        chmod 666 job.bbl job.blg
        chmod 600 "$file"
        run_as_another job
        wants_status 6
        wants_said "${file/./\\.}" 'Permission denied'
        wants_old
        end
    done
else
    echo 'left out: files of another user (needs root and setpriv)'
fi

# locked FILE: no one may change the file, where this user may lock it.
locked() {
    chattr +i "$1" 2>/dev/null
}

for output in bbl blg; do
    begin "locked_$output"
    leave_old
    if locked "job.$output"; then
        run_search job
        wants_status 6
        wants_said "job\\.$output" 'not permitted'
        chattr -i "job.$output"
        wants_old
    else
        echo 'left out: a locked file (without chattr, or on this file system)'
    fi
    end

    # The output is a program that runs: it can't be written.
    begin "running_program_as_$output"
    leave_old
    cp "$(command -v sleep)" "job.$output"
    chmod +x "job.$output"
    "./job.$output" 20 &
    sleeper=$!
    for _ in {1..50}; do
        [ "$(readlink "/proc/$sleeper/exe")" != "$PWD/job.$output" ] || break
        sleep 0.1
    done
    run_search job
    kill $sleeper
    wait $sleeper 2>/dev/null || true
    wants_status 6
    wants_said "job\\.$output" 'Text file busy'
    cmp -s "$(command -v sleep)" "job.$output" || complaints+=('the program was written over')
    end
done

# mounted WORD..: a small file system stands in the folder disk, where this user may mount one.
mounted() {
    mkdir disk
    mount -t tmpfs -o "$1" tmpfs disk 2>/dev/null || {
        echo 'left out: a disk of its own (this user may not mount one)'
        return 1
    }
}

begin full_disk
if mounted size=64k; then
    cp job.aux d.bib s.bst disk
    cd disk
    leave_old
    head -c 100000 /dev/zero >filler 2>/dev/null || true
    printf '%s\n' 'ENTRY {}{}{} READ' 'FUNCTION {f} {{#1} {"a line of the list" write$ newline$} while$}' 'EXECUTE {f}' >../s.bst
    BSTINPUTS=.. BIBINPUTS=.. run_search -budget=100000 job
    wants_status 6
    wants_said 'job\.b[bl][lg]' 'No space left'
    wants_whole_or_old "$(yes 'a line of the list' | head -n 20000)"
    cd ..
    umount disk
fi
end

begin read_only_disk
if mounted size=64k; then
    cp job.aux d.bib s.bst disk
    cd disk
    leave_old
    mount -o remount,ro tmpfs . 2>/dev/null
    run_search job
    wants_status 6
    wants_said 'job\.b[bl][lg]' 'Read-only file system'
    wants_old
    cd ..
    umount disk
fi
end

begin full_temporary_folder
if mounted size=4k; then
    head -c 10000 /dev/zero >disk/filler 2>/dev/null || true
    leave_old
    TMPDIR=$PWD/disk run_search job
    wants_first job
    umount disk
fi
end

begin no_temporary_folder
TMPDIR=/nosuch run_search job
wants_first job
end

# The system limits the length of a file.
begin limit_of_file_size
leave_old
use_style 'FUNCTION {f} {{#1} {"a line of the list" write$ newline$} while$} EXECUTE {f}'
status=0
(
    trap '' XFSZ
    ulimit -f 8
    LD_LIBRARY_PATH=$libraries exec timeout 60 "$search" -budget=100000 job </dev/null
) >/dev/null 2>"$folder/stderr" || status=$?
wants_status 6
wants_said 'job\.bbl' 'File too large'
wants_whole_or_old "$(yes 'a line of the list' | head -n 20000)"
end

# A call that fails, whichever it is.
gcc -O2 -Wall -Werror -shared -fPIC -o "$room/fail_write.so" "$here/fail_write.c" -ldl

# fail_at NUMBER [WORD]: runs the job with that call failing; with a WORD the write is a half one.
fail_at() {
    status=0
    env LD_LIBRARY_PATH="$libraries" LD_PRELOAD="$room/fail_write.so" FAIL_AT="$1" FAIL_NOTE="$folder/met" ${2+"FAIL_HALF=$2"} \
        timeout 60 "$search" job </dev/null >"$folder/stdout" 2>"$folder/stderr" || status=$?
}

for half in '' half; do
    for at in {1..12}; do
        begin "failing_call_${half}_$at"
        leave_old
        fail_at "$at" $half
        if [ -e "$folder/met" ]; then
            wants_status 6
            wants_said 'job\.b[bl][lg]' 'No space left'
            wants_whole_or_old $'a\n'
        else
            wants_status 0
            echo "        $((at - 1)) calls"
            end
            break
        fi
        end
    done
done

# Memory is refused: the old list stands, or the new one's beginning.
begin limits_of_memory
use_style 'FUNCTION {f} {{#1} {"a line of the list" write$ newline$} while$} EXECUTE {f}'
for kilobytes in 3000 5000 8000 12000 20000 40000 80000; do
    leave_old
    status=0
    (
        ulimit -v "$kilobytes"
        LD_LIBRARY_PATH=$libraries exec timeout 60 "$search" -budget=100000 job </dev/null
    ) >"$folder/stdout" 2>"$folder/stderr" || status=$?
    # (the standard library may have no memory for the alternative stack of a thread, and says so itself)
    [ "$status" -ne 6 ] || ! grep -q 'alternative stack' "$folder/stderr" || status=5
    case $status in
    4 | 5 | 127) wants_whole_or_old "$(yes 'a line of the list' | head -n 30000)" ;;
    139) ! can_be_loaded "$kilobytes" "$search" || complaints+=("with $kilobytes KB it dies") ;;
    *) complaints+=("with $kilobytes KB the exit status is $status: $(head -c 300 "$folder/stderr")") ;;
    esac
done
end

# However little memory there is, one sentence says so, under the name of the program; but before the program begins, where the system can't load it, or the standard library has no memory for its alternative stack or for what a thread leaves.
# (of bibtex-confined the proved program may be the one that had none. It says so itself at a few sizes alone, which is why those between 2,900 and 3,300 KB are near each other)
begin least_memory
echo '@misc{k}' >d.bib
for called in bibtex-search bibtex-explain bibtex-lint bibtex-confined; do
    said=0
    case $called in
    bibtex-lint | bibtex-explain) ln -sf "$search" "$room/$called" ;;
    esac
    case $called in
    bibtex-lint) words=("$room/bibtex-lint" s) ;;
    bibtex-explain) words=("$room/bibtex-explain" job) ;;
    *) words=("$programs/$called" job) ;;
    esac
    for kilobytes in $(seq 2600 150 7100) $(seq 3000 20 3400); do
        status=0
        (
            ulimit -v "$kilobytes"
            BIBTEX_PROGRAM=$program LD_LIBRARY_PATH=$libraries exec "${words[@]}" </dev/null
        ) >"$folder/stdout" 2>"$folder/stderr" || status=$?
        grep -qE 'alternative stack|TLS destructor' "$folder/stderr" && continue
        [ "$status" -ne 139 ] || can_be_loaded "$kilobytes" "${words[0]}" || continue
        [ "$status" -ne 134 ] && [ "$status" -ne 139 ] || complaints+=("$called with $kilobytes KB: the exit status is $status")
        grep -qE 'memory allocation|panicked|backtrace|failed to spawn' "$folder/stderr" && complaints+=("$called with $kilobytes KB: $(head -n 3 "$folder/stderr")")
        grep '^bibtex-' "$folder/stderr" | grep -qv "^$called: " && complaints+=("$called with $kilobytes KB says under another name: $(head -n 3 "$folder/stderr")")
        grep -qE "^$called: ((s: )?out of memory$|the job wants more than )" "$folder/stderr" && said=$((said + 1))
        case $called-$status in
        bibtex-lint-[1234]) complaints+=("with $kilobytes KB the style is blamed: status $status, $(cat "$folder/stdout" "$folder/stderr")") ;;
        esac
    done
    [ "$said" -gt 0 ] || complaints+=("$called never says that memory was refused")
done
end

begin modes_of_the_outputs
keeps_modes run_search
end

# Links stay links.
begin outputs_through_links
ln -s kept.bbl job.bbl
echo 'old log' >kept.blg
ln -s kept.blg job.blg
run_search job
wants_first job
[ -L job.bbl ] && [ -L job.blg ] || complaints+=('a link was replaced')
end

begin outputs_of_two_names
leave_old
ln job.bbl other
run_search job
wants_first job
wants_text other $'a\n'
end

# The new list is shorter than the old one.
begin shorter_list
letters 100000 x >job.bbl
letters 100000 x >job.blg
run_search job
wants_first job
[ "$(stat -c %s job.blg)" -lt 1000 ] || complaints+=('the log has what the old one had')
end

# What a run that ends early leaves.
begin old_list_of_a_stopped_run
leave_old
run_search -budget=0 job
wants_status 4
wants_text job.bbl ''
! grep -q 'old log' job.blg || complaints+=('the old log is left')
end

begin old_list_without_a_style
leave_old
rm s.bst
run_search job
wants_status 2
wants_text job.bbl ''
end

# Two runs of a job at once: what stands there is of one of them.
begin two_runs_at_once_with_long_lists
use_style 'FUNCTION {f} {#3000 {duplicate$ #0 >} {"a line of the list" write$ newline$ #1 -} while$ pop$} EXECUTE {f}'
for _ in 1 2 3 4 5; do
    run_search -terse -line=20 job &
    other=$!
    run_search -terse job
    wait $other
    lines=$(sort -u job.bbl | wc -l)
    [ "$lines" -eq 1 ] || complaints+=("the list is of two runs: $(sort job.bbl | uniq -c | head -n 5)")
    [ "$(grep -c '^Ended: ' job.blg)" -eq 1 ] || complaints+=("the log is of two runs: $(cat job.blg)")
done
end

# A run that made the list and the log, and then can't write them, takes nothing from one that began meanwhile.
begin run_beside_one_that_fails
use_style 'FUNCTION {f} {#3000000 {duplicate$ #0 >} {#1 -} while$ pop$ "a" write$ newline$} EXECUTE {f}'
(
    ulimit -f 0
    start_search job </dev/null >/dev/null 2>"$folder/stderr"
) &
other=$!
for _ in {1..200}; do
    [ ! -e job.bbl ] || break
    sleep 0.01
done
run_search job
wait $other && complaints+=('the other run did not fail')
wants_status 0
wants_text job.bbl $'a\n'
wants_words job.blg 'The style file: s.bst'
end

# An output that is a pipe which nobody reads: a signal ends the run.
for output in bbl blg; do
    begin "pipe_without_a_reader_$output"
    mkfifo job.$output
    status=0
    LD_LIBRARY_PATH=$libraries timeout -s TERM -k 12 1 "$search" job </dev/null >"$folder/stdout" 2>"$folder/stderr" || status=$?
    wants_status 124
    rm job.$output
    end
done
