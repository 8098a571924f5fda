# A signal ends a run, and keeps the beginning of what it would have written. A run whose outputs take too much room ends too.

begin signals_at_random_moments
LD_LIBRARY_PATH=$libraries python3 "$here/signals.py" --seed "${seed:-1}" --endless "$([ -n "$few" ] && echo 4 || echo 40)" "$([ -n "$few" ] && echo 40 || echo 200)" "$search" >found || complaints+=("$(cat found)")
echo "        $(tail -n 1 found)"
end

# endless: a list that grows without end, some lines a millisecond, after a message.
endless() {
    use_style 'FUNCTION {f} {#1 pop$ "begun" warning$ {#1} {"a line of the list" write$ newline$ #20000 {duplicate$ #0 >} {#1 -} while$ pop$} while$} EXECUTE {f}'
}

# interrupt SIGNAL SECONDS WORD..: runs bibtex-search, and sends this signal after these seconds. `took` is how many tenths of a second it took to end.
interrupt() {
    local began
    status=0
    LD_LIBRARY_PATH=$libraries "$python" -c 'import os, signal, sys; signal.signal(signal.SIGINT, signal.SIG_DFL); os.execv(sys.argv[1], sys.argv[1:])' \
        "$search" -budget=1000000000000 -list-room=30M "${@:3}" </dev/null >"$folder/stdout" 2>"$folder/stderr" &
    sleep "$2"
    began=$(date +%s%N)
    # (it may have ended)
    kill "-$1" $! 2>/dev/null || true
    wait $! || status=$?
    took=$((($(date +%s%N) - began) / 100000000))
}

# wants_begun: the list has a beginning of what the whole run writes, and the log says why it isn't whole.
wants_begun() {
    [ -s job.bbl ] || complaints+=('the list is empty')
    [ -z "$(grep -vx 'a line of the list' job.bbl)" ] || complaints+=("the list has $(grep -vx 'a line of the list' job.bbl | head -n 3)")
    wants_words job.blg 'Warning--begun'
    grep -qiE 'interrupt|signal' job.blg || complaints+=("the log doesn't say why: $(tail -n 3 job.blg)")
    [ "$took" -le 25 ] || complaints+=("it took $took tenths of a second to end")
    wants_files d.bib job.aux job.bbl job.blg s.bst
}

for signal in INT TERM; do
    begin "interrupted_by_$signal"
    endless
    leave_old
    interrupt $signal 1 job
    wants_status $((128 + $(kill -l $signal)))
    wants_begun
    end
done

# Where a step is slow, so are a thousand; the beginning that is kept is then a shorter one.
begin interrupted_in_slow_steps
{
    echo 'ENTRY {title}{}{} FUNCTION {misc}{} STRINGS {s} READ'
    echo 'FUNCTION {f} {"begun" warning$ "a line of the list" write$ newline$ "a " '"$(printf 'duplicate$ * %.0s' {1..18})"' '"'"'s := {#1} {s #1 "{ff}" format.name$ pop$} while$} EXECUTE {f}'
} >s.bst
leave_old
interrupt INT 1 -global-max=1000000 job
wants_status 130
wants_begun
end

begin interrupted_on_a_terminal
endless
leave_old
LD_LIBRARY_PATH=$libraries python3 "$here/interrupted.py" 3 "$search" -budget=1000000000000 -list-room=30M job >"$folder/found" || complaints+=("it ends with $?: $(cat "$folder/found")")
took=0
wants_begun
grep -qi 'ctrl-c' "$folder/found" || complaints+=("nothing said that it was still going: $(cat "$folder/found")")
end

# A signal that comes shortly before the end of a run ends the program too, whatever was written: so it ends a shell's loop.
begin interrupted_shortly_before_the_end
use_style 'FUNCTION {f} {#5000000 {duplicate$ #0 >} {#1 -} while$ pop$ "a" write$ newline$} EXECUTE {f}'
LD_LIBRARY_PATH=$libraries python3 "$here/taken.py" "$search" -terse job >"$folder/found" || complaints+=("$(cat "$folder/found")")
echo "        $(tail -n 1 "$folder/found")"
wants_text job.bbl $'a\n'
wants_files d.bib job.aux job.bbl job.blg s.bst
end

# A second signal ends it at once.
begin interrupted_twice
endless
leave_old
status=0
LD_LIBRARY_PATH=$libraries "$search" -budget=1000000000000 job </dev/null >/dev/null 2>&1 &
sleep 0.5
kill -TERM $!
sleep 0.05
kill -TERM $! 2>/dev/null || true
wait $! || status=$?
wants_status 143
wants_whole_or_old "$(yes 'a line of the list' | head -n 200000)"
end

# write_slow_errors N: a style with few steps, of which N take a millisecond or more, since they purify a string of 524,288 bytes; and then come 100 errors.
write_slow_errors() {
    {
        echo 'ENTRY {title}{}{} FUNCTION {misc}{} STRINGS {s} READ'
        echo 'FUNCTION {f} {"a line of the list" write$ newline$ "a " '"$(printf 'duplicate$ * %.0s' {1..18})"' '"'"'s :='
        printf 's purify$ pop$\n%.0s' $(seq "$1")
        printf 'pop$\n%.0s' {1..100}
        echo '} EXECUTE {f}'
    } >s.bst
}

# It is looked for what was called and on the stack as long as that takes little time, however few steps there are.
begin places_of_errors_behind_slow_steps
write_slow_errors 200
LD_LIBRARY_PATH=$libraries python3 "$here/measured.py" --processor "$folder/stdout" "$folder/stderr" timeout 60 "$search" -explain -global-max=1000000 job >measured
read -r status took memory <measured
echo "        $took s"
wants_status 2
[ "$took" -le 20 ] || complaints+=("it took $took processor seconds")
wants_text job.bbl $'a line of the list\n'
wants_words job.blg 'line 203 of file s.bst'
end

# A signal ends that search too; the run is done, and what it gave is kept. It comes at several moments, since no one knows how fast the machine is.
# (With -explain it is looked for what was called and on the stack.)
begin interrupted_while_places_are_looked_for
write_slow_errors 1500
ended=()
for moment in 0.5 1 1.5 2 2.5 3; do
    leave_old
    interrupt INT $moment -explain -global-max=1000000 job
    ended+=("$status")
    wants_text job.bbl $'a line of the list\n'
    [ "$status" -ne 2 ] || continue
    wants_status 130
    [ "$took" -le 25 ] || complaints+=("it took $took tenths of a second to end")
    wants_words job.blg Interrupted
    if grep -q 'list and log are whole' job.blg; then
        [ "$(grep -c "can't pop" job.blg)" -gt 0 ] || complaints+=("the log has $(head -n 5 job.blg)")
    fi
done
echo "        the statuses are ${ended[*]}"
[[ " ${ended[*]} " == *' 130 '* ]] || complaints+=("no signal met a run: ${ended[*]}")
end

# A signal that is ignored stays so: nohup, and jobs of a shell in the background.
begin ignored_signal
use_style 'FUNCTION {f} {#9000000 {duplicate$ #0 >} {#1 -} while$ pop$ "a" write$ newline$} EXECUTE {f}'
for signal in INT HUP TERM; do
    (
        trap '' $signal
        LD_LIBRARY_PATH=$libraries exec "$search" job </dev/null >"$folder/stdout" 2>"$folder/stderr"
    ) &
    sleep 0.3
    kill -$signal $! 2>/dev/null || true
    status=0
    wait $! || status=$?
    wants_status 0
    wants_text job.bbl $'a\n'
done
end

# A run that no one interrupts says nothing of that, however long it takes.
begin long_run_without_a_terminal
use_style 'FUNCTION {f} {#10000000 {duplicate$ #0 >} {#1 -} while$ pop$ "a" write$ newline$} EXECUTE {f}'
run_search job
wants_status 0
wants_text job.bbl $'a\n'
wants_error ''
end

# While the log is printed, and its reader doesn't read, a signal ends the run at once; both files are written.
begin interrupted_while_printing
use_style 'FUNCTION {f} {#20000 {duplicate$ #0 >} {"a warning of the style" warning$ #1 -} while$ pop$ "a" write$ newline$} EXECUTE {f}'
leave_old
mkfifo reader
sleep 30 <reader &
sleeper=$!
status=0
LD_LIBRARY_PATH=$libraries "$search" job </dev/null >reader 2>"$folder/stderr" &
running=$!
sleep 2
kill -TERM $running
(
    sleep 3
    kill -KILL $running 2>/dev/null
) &
killer=$!
wait $running || status=$?
kill $killer $sleeper 2>/dev/null || true
wait $killer $sleeper 2>/dev/null || true
wants_status 143
wants_text job.bbl $'a\n'
rm reader
end

# A run in which there is much to say ends by a signal too, whatever it does at that moment.
begin interrupted_among_very_many_messages
write_many
leave_old
status=0
LD_LIBRARY_PATH=$libraries timeout -k 3 0.3 "$search" -explain job </dev/null >/dev/null 2>&1 || status=$?
[ "$status" -ne 137 ] || complaints+=('the signal does nothing')
end

# ---- floods ----

# flooded WORD..: runs the job with the words; its memory, in KB, and its processor seconds.
flooded() {
    LD_LIBRARY_PATH=$libraries python3 "$here/measured.py" --processor "$folder/stdout" "$folder/stderr" timeout 60 "$search" "$@" >measured
    read -r status took memory <measured
    echo "        status $status, $took s, $memory KB, $(cat job.bbl job.blg | wc -c) bytes"
}

# wants_bounded SECONDS KB
wants_bounded() {
    [ "$took" -le "$1" ] || complaints+=("it took $took processor seconds")
    [ "$memory" -le "$2" ] || complaints+=("it took $memory KB")
}

# One letter is forgotten in a style: its loop logs an error each round. The first line that one reads is the style's mistake.
begin flood_of_errors
write_flood
flooded job
wants_status 3
wants_bounded 6 300000
[ "$(messages job.blg | head -n 1)" = "Error--INTEGER isn't a command--line 4 of file s.bst" ] || complaints+=("the first message is $(messages job.blg | head -n 1)")
[ "$(messages "$folder/stdout" | head -n 1)" = "Error--INTEGER isn't a command--line 4 of file s.bst" ] || complaints+=("the first message printed is $(messages "$folder/stdout" | head -n 1)")
wants_words job.blg -log-room
wants_words "$folder/stdout" -log-room
[ "$(grep -c "INTEGER isn't a command" job.blg)" -eq 1 ] || complaints+=("the first message stands there $(grep -c "INTEGER isn't a command" job.blg) times")
[ "$(stat -c %s job.blg)" -le 200000000 ] || complaints+=("the log has $(stat -c %s job.blg) bytes")
end

begin flood_of_errors_explained
write_flood
flooded -explain job
wants_status 3
wants_bounded 9 400000
wants_words "$folder/stdout" "INTEGER isn't a command"
[ "$(stat -c %s "$folder/stdout")" -le 20000000 ] || complaints+=("$(stat -c %s "$folder/stdout") bytes were printed")
end

begin log_room
use_style 'FUNCTION {f} {{#1} {"a warning of the style" warning$} while$} EXECUTE {f}'
flooded -log-room=1M job
wants_status 3
wants_bounded 6 300000
[ "$(stat -c %s job.blg)" -le 2200000 ] || complaints+=("the log has $(stat -c %s job.blg) bytes")
wants_words job.blg -log-room
wants_words "$folder/stdout" -log-room
wants_words job.blg 'Warning--a warning of the style'
# (1,000 lines of the log, and where the rest is)
[ "$(wc -l <"$folder/stdout")" -eq 1001 ] || complaints+=("$(wc -l <"$folder/stdout") lines were printed")
end

# Each place in a style has the style's name again: places take as many bytes as the log's room at most.
begin log_room_of_a_long_name
name=$(printf 'long%.0s' {1..60})
echo 'ENTRY {author}{}{} FUNCTION {f} {{#1} {pop$} while$} READ ITERATE {f}' >"$name.bst"
printf '\\citation{k}\n\\bibdata{d}\n\\bibstyle{%s}\n' "$name" >job.aux
echo '@misc{k}' >d.bib
flooded -log-room=1M job
wants_status 3
wants_bounded 6 300000
[ "$(stat -c %s job.blg)" -le 2200000 ] || complaints+=("the log has $(stat -c %s job.blg) bytes")
wants_words job.blg "of file $name.bst"
wants_words job.blg -log-room
end

begin list_room
use_style 'FUNCTION {f} {{#1} {"a line of the list" write$ newline$} while$} EXECUTE {f}'
flooded -list-room=1M job
wants_status 3
wants_bounded 6 300000
[ -s job.bbl ] && [ "$(stat -c %s job.bbl)" -le 1100000 ] || complaints+=("the list has $(stat -c %s job.bbl) bytes")
wants_beginning job.bbl "$(yes 'a line of the list' | head -n 100000)"
wants_words job.blg -list-room
wants_words "$folder/stdout" -list-room
end

begin rooms_of_nothing
for words in '-log-room=0' '-list-room=0'; do
    run_search $words job
    wants_status 3
done
end

# A room that is just large enough is no limit.
begin room_that_is_enough
run_search -list-room=2 job
wants_status 0
wants_text job.bbl $'a\n'
run_search -list-room=1 job
wants_status 3
wants_beginning job.bbl $'a\n'
end

# A style of TeX Live looks for ever for a letter in an author without one.
if has kpsewhich && kpsewhich plain-letters.bst >/dev/null; then
    begin flood_of_a_style_of_tex_live
    printf '\\citation{k}\n\\bibdata{d}\n\\bibstyle{plain-letters}\n' >job.aux
    echo '@misc{k, author = {12}, title = {A}}' >d.bib
    flooded -explain job
    [ "$status" -eq 3 ] || [ "$status" -eq 4 ] || complaints+=("the exit status is $status")
    wants_bounded 30 400000
    end
else
    echo 'left out: a style of TeX Live that floods the log (without plain-letters.bst)'
fi
