# What the checks are written with. `tests/run` and `tests/front/check` read this file; they set `program`, `examples` and `room`.

passed=0
failed=0
check=

# What the log of the first example begins with, and its whole log, finished.
found_log='The top-level auxiliary file: job.aux
The style file: s.bst
Database file #1: d.bib
'
first_log="${found_log}Ended: finished, warnings 0, errors 0, steps 4
"

# begin NAME: a check of this name, in a folder of its own that holds the files of the first example.
begin() {
    [ -z "$check" ] || miss "$check" 'it has no end'
    check=$1
    folder=$room/$check
    mkdir "$folder" "$folder/work"
    cp "$examples"/first/*.{aux,bib,bst} "$folder/work"
    complaints=()
    cd "$folder/work"
}

# use_style TEXT: the style is the first example's up to its READ, and then this text.
use_style() {
    printf 'ENTRY {title}{}{} FUNCTION {misc}{} READ %s\n' "$1" >s.bst
}

# cite KEYS: the job cites these.
cite() {
    printf '\\citation{%s}\n\\bibdata{d}\n\\bibstyle{s}\n' "$1" >job.aux
}

# letters N LETTER: N of this letter.
letters() {
    printf "$2%.0s" $(seq "$1")
}

# start_program WORD..: becomes the program, for at most a minute.
start_program() {
    exec timeout 60 "$program" "$@"
}

# run_program WORD..: runs the program in the check's folder, without standard input.
run_program() {
    status=0
    (start_program "$@") </dev/null >"$folder/stdout" 2>"$folder/stderr" || status=$?
}

# run_without STREAMS START WORD..: what START becomes runs with these of the standard streams 0, 1 and 2 closed.
run_without() {
    local streams=$1
    shift
    status=0
    (
        exec </dev/null >"$folder/stdout" 2>"$folder/stderr"
        [[ $streams != *0* ]] || exec 0<&-
        [[ $streams != *1* ]] || exec 1>&-
        [[ $streams != *2* ]] || exec 2>&-
        "$@"
    ) || status=$?
}

# use_stream STREAM: the database is this standard stream, by its number. An old list holds a database, which the job doesn't read where the stream
# is closed, though the list is the first file that it opens.
use_stream() {
    cite k
    rm d.bib
    ln -s "/dev/fd/$1" d.bib
    printf '@misc{k, title = {T}}\n' >job.bbl
    use_style 'FUNCTION {f} {title write$ newline$} ITERATE {f}'
}

# compile_failures: compiles tests/fail_open.c, whose library makes calls of the system fail, as variables say.
compile_failures() {
    fail_open=$room/fail_open.so
    gcc -O2 -Wall -Werror -shared -fPIC -o "$fail_open" "$here/fail_open.c" -ldl
}

# run_with VARIABLE=VALUE..: runs the job with these variables of tests/fail_open.c.
run_with() {
    status=0
    timeout 60 env LD_PRELOAD="$fail_open" "$@" "$program" job </dev/null >"$folder/stdout" 2>"$folder/stderr" || status=$?
}

# run_failing REASON FILE: runs the job where this file can't be opened for this reason.
run_failing() {
    run_with FAIL_REASON="$1" FAIL_OPEN="$2"
}

# keeps_modes RUN: who may read and write the outputs of the jobs that RUN runs is what the system says of new files, and of old ones what it was.
keeps_modes() {
    umask 027
    echo 'old list' >old.bbl
    cp job.aux old.aux
    chmod 606 old.bbl
    "$1" job
    "$1" old
    umask 022
    [ "$(stat -c %a job.bbl job.blg old.bbl | tr '\n' ' ')" = '640 640 606 ' ] || complaints+=("the modes are $(stat -c %a job.bbl job.blg old.bbl)")
    wants_text old.bbl $'a\n'
}

# wants_status N: the exit status was N.
wants_status() {
    [ "$status" -eq "$1" ] || complaints+=("the exit status is $status, not $1")
}

# wants_text FILE TEXT: the file has exactly these bytes.
wants_text() {
    if [ ! -f "$1" ]; then
        complaints+=("there is no $(basename "$1")")
    elif ! printf '%s' "$2" | cmp -s - "$1"; then
        complaints+=("$(basename "$1") is $(printf '%q' "$(cat "$1")"), not $(printf '%q' "$2")")
    fi
}

# wants_output TEXT, wants_error TEXT: what stands on standard output and on standard error.
wants_output() {
    wants_text "$folder/stdout" "$1"
}

wants_error() {
    wants_text "$folder/stderr" "$1"
}

# wants_error_with TEXT: standard error has a line with this text.
wants_error_with() {
    grep -qF -- "$1" "$folder/stderr" || complaints+=("standard error has no '$1': $(printf '%q' "$(cat "$folder/stderr")")")
}

# wants_job STATUS LIST LOG: the list and the log have exactly these bytes, the log was printed, and the status is this one.
wants_job() {
    wants_status "$1"
    wants_output "$3"
    wants_error ''
    wants_text job.bbl "$2"
    wants_text job.blg "$3"
}

# wants_found STATUS LIST LINES: the same, where the log has these lines after those of the first example's three files.
wants_found() {
    wants_job "$1" "$2" "$found_log$3
"
}

# wants_files NAME..: the work folder holds these files, named in order, and no other.
wants_files() {
    local found
    found=$(ls -A "$folder/work" | tr '\n' ' ')
    [ "$found" = "$* " ] || complaints+=("the folder holds $found, not $*")
}

# wants_beginning FILE TEXT: the file isn't there, or has a beginning of these bytes.
wants_beginning() {
    local LC_ALL=C
    if [ -f "$1" ] && ! printf '%s' "${2:0:$(stat -c %s "$1")}" | cmp -s - "$1"; then
        complaints+=("$(basename "$1") is $(printf '%q' "$(cat "$1")"), no beginning of $(printf '%q' "$2")")
    fi
}

# end: counts the check, and says what it complains of.
end() {
    cd "$room"
    if [ ${#complaints[@]} -eq 0 ]; then
        passed=$((passed + 1))
        echo "ok      $check"
    else
        miss "$check" "${complaints[@]}"
    fi
    check=
    echo "$passed $failed" >"$room/counts"
}

# miss NAME WHY..: counts what failed, and says why.
miss() {
    failed=$((failed + 1))
    echo "FAILED  $1"
    printf '        %s\n' "${@:2}"
}

# break_of LINE COMMAND: a command failed whose status no check asks for. The check that stands open fails, and goes on.
break_of() {
    if [ -n "$check" ]; then
        complaints+=("line $1 failed: $2")
    else
        miss "$group" "line $1 failed: $2"
    fi
}

# run_group FILE: runs the checks of a file in a shell of its own. A file that bash can't read to its end, or that ends that shell, is a
# failure beside what its checks counted; the files after it are run all the same.
run_group() {
    group=$(basename "$1")
    rm -f "$room/ended"
    bash -n "$1" || miss "$group" 'bash cannot read it'
    echo "$passed $failed" >"$room/counts"
    (
        set -E
        trap 'break_of "$LINENO" "$BASH_COMMAND"' ERR
        source "$1"
        trap - ERR
        [ -z "$check" ] || miss "$check" 'it has no end'
        echo "$passed $failed" >"$room/counts"
        : >"$room/ended"
    )
    read -r passed failed <"$room/counts"
    [ -f "$room/ended" ] || miss "$group" 'it ended before its last line'
}

# print_counts: the last line of all checks, and the status that goes with it.
print_counts() {
    echo "$passed passed, $failed failed"
    [ "$failed" -eq 0 ] && [ "$passed" -gt 0 ]
}
