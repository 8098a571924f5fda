# The front end is started with standard streams closed, and with ones that take nothing. No file of the job takes the place of a stream, and nothing that is printed lands
# in a file.

for streams in 0 1 2 01 02 12 012; do
    begin "closed_streams_$streams"
    cite k,nosuch
    run_without "$streams" start_search job
    case $streams in
    *1*) [[ " 0 6 " == *" $status "* ]] || complaints+=("the exit status is $status") ;;
    *) wants_status 0 ;;
    esac
    wants_text job.bbl $'a\n'
    wants_messages job.blg "Warning--I didn't find a database entry for \"nosuch\""
    wants_files d.bib job.aux job.bbl job.blg s.bst
    end

    begin "failing_with_closed_streams_$streams"
    leave_old
    rm job.aux
    run_without "$streams" start_search job
    wants_status 3
    wants_old
    run_without "$streams" start_search -nosuch
    wants_status 1
    wants_old
    end

    # A database that is the stream with a number isn't an output of the job that got this number.
    for stream in $(echo "$streams" | grep -o .); do
        begin "database_from_stream_${stream}_of_closed_streams_$streams"
        use_stream "$stream"
        run_without "$streams" start_search job
        [ "$status" -ne 124 ] || complaints+=('it waits')
        ! grep -q T job.bbl || grep -q 'title = {T}' job.bbl || complaints+=("the list was read as a database: $(cat job.bbl)")
        end
    done
done

begin full_standard_output
cite nosuch
status=0
(start_search job) >/dev/full 2>"$folder/stderr" </dev/null || status=$?
wants_status 6
wants_error_with 'standard output'
wants_error_with 'No space left'
wants_text job.bbl $'a\n'
wants_messages job.blg "Warning--I didn't find a database entry for \"nosuch\""
end

begin full_standard_error
leave_old
rm job.aux
status=0
(start_search job) >"$folder/stdout" 2>/dev/full </dev/null || status=$?
wants_status 3
wants_old
end

# The reader of standard output has closed it: the files are written all the same, and nothing else is said than that.
begin output_closed_by_its_reader
exec {pipe}> >(:)
wait $!
status=0
(start_search job) </dev/null >&"$pipe" 2>"$folder/stderr" || status=$?
exec {pipe}>&-
[ "$status" -eq 6 ] || [ "$status" -eq 141 ] || complaints+=("the exit status is $status")
wants_text job.bbl $'a\n'
grep -q '^Database file #1' job.blg || complaints+=("the log is $(cat job.blg)")
end

begin standard_input_is_not_read
printf 'kept\n' >input
{
    (start_search job) >"$folder/stdout" 2>"$folder/stderr"
    cat >rest
} <input
wants_text rest $'kept\n'
end

# The reader of standard output asked that nobody waits at its pipe, and is slow.
begin output_to_a_pipe_that_never_waits
use_style 'FUNCTION {f} {#20000 {duplicate$ #0 >} {"a warning of the style" warning$ #1 -} while$ pop$} EXECUTE {f}'
status=0
LD_LIBRARY_PATH=$libraries python3 -c '
import os, subprocess, sys, time
out, into = os.pipe()
os.set_blocking(into, False)
run = subprocess.Popen([sys.argv[1], "job"], stdin=subprocess.DEVNULL, stdout=into)
os.close(into)
time.sleep(1)
with os.fdopen(out, "rb") as pipe:
    sys.stdout.buffer.write(pipe.read())
sys.exit(run.wait())' "$search" >"$folder/stdout" 2>"$folder/stderr" || status=$?
wants_status 0
wants_error ''
cmp -s "$folder/stdout" job.blg || complaints+=("$(stat -c %s "$folder/stdout") bytes were printed of $(stat -c %s job.blg)")
end
