# Files and outputs that fail.

device_error=$'bibtex: device error\n'
compile_failures

begin no_folder
run_program --dir nowhere job
wants_status 6
wants_output ''
wants_error "$device_error"
wants_files d.bib job.aux s.bst
end

# The second database can't be read: all that was found before it is logged.
begin second_database_that_cannot_be_read
printf '%s\n' '\citation{k}' '\bibdata{d,e}' '\bibstyle{s}' >job.aux
mkdir e.bib
run_program job
found=${first_log%Ended*}
wants_status 6
wants_output "$found"
wants_error "$device_error"
wants_text job.blg "$found"
wants_text job.bbl ''
end

# The `.bbl` can't be created: no log is written.
begin references_that_cannot_be_created
mkdir job.bbl
run_program job
wants_status 6
wants_output ''
wants_error "$device_error"
wants_files d.bib job.aux job.bbl s.bst
end

# The `.bbl` takes no byte: the log so far is written.
begin references_that_cannot_be_written
ln -s /dev/full job.bbl
run_program job
begun=${first_log%Ended*}
wants_status 6
wants_output "$begun"
wants_error "$device_error"
wants_text job.blg "$begun"
end

# log_is_printed_all_the_same: runs the job whose log's file takes nothing.
log_is_printed_all_the_same() {
    run_program job
    wants_status 6
    wants_output "$first_log"
    wants_error "$device_error"
    wants_text job.bbl $'a\n'
}

begin log_that_cannot_be_created
mkdir job.blg
log_is_printed_all_the_same
end

begin log_that_cannot_be_written
ln -s /dev/full job.blg
log_is_printed_all_the_same
end

# wants_unprinted: what the job printed wasn't taken, and its files were written all the same.
wants_unprinted() {
    wants_status 6
    wants_error "$device_error"
    wants_text job.bbl $'a\n'
    wants_text job.blg "$first_log"
}

# Standard output takes no byte.
begin output_that_cannot_be_written
status=0
timeout 60 "$program" job </dev/null >/dev/full 2>"$folder/stderr" || status=$?
wants_unprinted
end

# log_much: the style logs 512 warnings of 160 bytes, more than a pipe holds.
log_much() {
    use_style 'FUNCTION {g} {"0123456789" duplicate$ * duplicate$ * duplicate$ * duplicate$ * warning$} FUNCTION {f} {g g g g g g g g}
FUNCTION {h} {f f f f f f f f} EXECUTE {h} EXECUTE {h} EXECUTE {h} EXECUTE {h} EXECUTE {h} EXECUTE {h} EXECUTE {h} EXECUTE {h}'
}

# The log is stored before it is printed: it stands in its file while the reader of standard output takes nothing.
begin log_stored_before_it_is_printed
log_much
status=0
timeout 60 python3 - "$program" >"$folder/stdout" 2>"$folder/stderr" <<'EOF' || status=$?
import subprocess, sys, time

running = subprocess.Popen([sys.argv[1], "job"], stdin=subprocess.DEVNULL, stdout=subprocess.PIPE)
log = b""
for _ in range(200):
    time.sleep(0.05)
    try:
        log = open("job.blg", "rb").read()
    except FileNotFoundError:
        continue
    if b"\nEnded: " in log:
        break
print("stored" if b"\nEnded: " in log else "not stored", "running" if running.poll() is None else "ended")
print(running.communicate()[0] == open("job.blg", "rb").read())
sys.exit(running.returncode)
EOF
wants_status 0
wants_error ''
wants_output $'stored running\nTrue\n'
end

# Both fail: one fault is reported.
begin two_failures
ln -s /dev/full job.bbl
mkdir job.blg
run_program job
wants_status 6
wants_output "${first_log%Ended*}"
wants_error "$device_error"
end

# Memory is refused for the log's file, and standard output takes no byte: the first of both faults counts.
begin log_without_memory_and_output
status=0
timeout 60 env LD_PRELOAD="$fail_open" FAIL_REASON=ENOMEM FAIL_OPEN=job.blg "$program" job </dev/null >/dev/full 2>"$folder/stderr" || status=$?
wants_status 5
wants_error $'bibtex: out of memory\n'
wants_text job.bbl $'a\n'
end

# Memory is refused for the log's file: it is printed all the same. Where it is for the list's file, nothing is.
begin log_without_memory
run_failing ENOMEM job.blg
wants_status 5
wants_output "$first_log"
wants_error $'bibtex: out of memory\n'
wants_text job.bbl $'a\n'
end

begin list_without_memory
run_failing ENOMEM job.bbl
wants_status 5
wants_output ''
wants_error $'bibtex: out of memory\n'
wants_files d.bib job.aux s.bst
end

# moves_in VARIABLES: with these variables of tests/fail_open.c the job does what it does without them.
moves_in() {
    begin "moves_in_$(printf '%s' "$*" | tr -c 'A-Za-z0-9' _)"
    use_style 'FUNCTION {f} {"a" write$ newline$ "b " write$} EXECUTE {f} EXECUTE {f}'
    printf '@comment{%s}\n@misc{k, title = {T}}\n' "$(letters 3000 x)" >d.bib
    run_with "$@"
    wants_found 0 $'a\nb a\nb\n' 'Ended: finished, warnings 0, errors 0, steps 12'
    end
}

# A reading or a writing may take a part of what it is asked for, and a signal may interrupt a reading: it is gone on with.
moves_in FAIL_SHORT=yes
moves_in FAIL_READ=first FAIL_REASON=EINTR

# A signal interrupts the writing of the log.
begin interrupted_log
use_style ''
run_with FAIL_WRITE=first FAIL_REASON=EINTR
wants_found 0 '' 'Ended: finished, warnings 0, errors 0, steps 0'
end

# A database may come through a pipe, piece by piece.
begin database_from_a_pipe
mkfifo e.bib
timeout 60 bash -c "{ printf '@misc{k, ti'; sleep 0.2; printf 'tle = {P}}\\n'; } >e.bib" &
use_style 'FUNCTION {f} {title write$ newline$} ITERATE {f}'
printf '\\citation{k}\n\\bibdata{e}\n\\bibstyle{s}\n' >job.aux
run_program job
kill $! 2>/dev/null || true
wait $! || true
wants_job 0 $'P\n' "${found_log/d.bib/e.bib}Ended: finished, warnings 0, errors 0, steps 4
"
end

# A job that ends at a limit, and whose log can't be created: the device's fault gives the status.
begin limit_without_a_log
use_style 'FUNCTION {g} {} FUNCTION {f} {{#1} {#7} while$} EXECUTE {f}'
mkdir job.blg
run_program job
wants_status 6
wants_output "${found_log}Ended: limit literals, warnings 0, errors 0, steps 4006
"
wants_error "$device_error"
wants_text job.bbl ''
end

# cannot_be_printed NAME WORD: what this word asks for can't be printed.
cannot_be_printed() {
    begin "$1"
    status=0
    timeout 60 "$program" "$2" </dev/null >/dev/full 2>"$folder/stderr" || status=$?
    wants_status 6
    wants_error "$device_error"
    wants_files d.bib job.aux s.bst
    end
}

cannot_be_printed help_that_cannot_be_printed --help
cannot_be_printed version_that_cannot_be_printed --version

# A folder can be opened and not be read: the log has what was logged before.
# cannot_be_read FILE LOG: this file is a folder.
cannot_be_read() {
    begin "${1//./_}_that_cannot_be_read"
    rm "$1"
    mkdir "$1"
    run_program job
    wants_status 6
    wants_output "$2"
    wants_error "$device_error"
    wants_text job.bbl ''
    wants_text job.blg "$2"
    end
}

cannot_be_read job.aux ''
cannot_be_read s.bst "${found_log%The style*}"
cannot_be_read d.bib "${found_log%Database*}"

# The folder takes no file.
begin folder_that_takes_no_file
run_program --dir /proc job
wants_status 6
wants_output ''
wants_error "$device_error"
wants_files d.bib job.aux s.bst
end

# No file may have a byte.
begin limit_of_file_size
status=0
(
    trap '' XFSZ
    ulimit -f 0
    exec timeout 60 "$program" job </dev/null 2>&1
) | cat >"$folder/both" || status=$?
wants_status 6
wants_text "$folder/both" "${first_log%Ended*}$device_error"
wants_text job.bbl ''
wants_text job.blg ''
end

# The reader of standard output has closed it.
begin output_closed_by_its_reader
exec {pipe}> >(:)
wait $!
status=0
timeout 60 "$program" job </dev/null >&"$pipe" 2>"$folder/stderr" || status=$?
exec {pipe}>&-
wants_unprinted
end

# Standard output is a pipe that takes a part of the log and then nothing: the files are written all the same.
begin output_that_takes_a_part
log_much
status=0
timeout 60 python3 - "$program" >"$folder/taken" 2>"$folder/stderr" <<'EOF' || status=$?
import os, subprocess, sys

out, into = os.pipe()
os.set_blocking(into, False)
ended = subprocess.run([sys.argv[1], "job"], stdin=subprocess.DEVNULL, stdout=into)
os.close(into)
with open(out, "rb") as taken:
    print(len(taken.read()) < os.stat("job.blg").st_size)
sys.exit(ended.returncode)
EOF
wants_status 6
wants_error "$device_error"
wants_text "$folder/taken" $'True\n'
wants_text job.bbl ''
end

# The list's file can't be cut: what it holds isn't taken for the new list.
begin list_that_cannot_be_cut
status=0
timeout 60 python3 - "$program" >"$folder/stdout" 2>"$folder/stderr" <<'EOF' || status=$?
import fcntl, os, subprocess, sys

sealed = os.memfd_create("list", os.MFD_ALLOW_SEALING)
os.write(sealed, b"an old list\n")
fcntl.fcntl(sealed, fcntl.F_ADD_SEALS, fcntl.F_SEAL_SHRINK)
os.symlink(f"/proc/{os.getpid()}/fd/{sealed}", "job.bbl")
ended = subprocess.run([sys.argv[1], "job"], stdin=subprocess.DEVNULL, stdout=subprocess.DEVNULL)
print(os.pread(sealed, 100, 0).decode(), end="")
os.unlink("job.bbl")
sys.exit(ended.returncode)
EOF
wants_status 6
wants_error "$device_error"
wants_output $'an old list\n'
wants_text job.blg "${first_log%Ended*}"
end

# The name of the outputs is longer than any that the system takes.
begin long_name_of_a_job
run_program "$(printf 'n%.0s' {1..300})"
wants_status 6
wants_output ''
wants_error "$device_error"
wants_files d.bib job.aux s.bst
end
