# bibtex-confined: what it refuses, and that each attack ends within a minute, 1 GB of memory and 100 MB of output, with a reason.

confined=$programs/bibtex-confined

# run_confined WORD..: runs it in the check's folder.
run_confined() {
    status=0
    "$confined" "$@" </dev/null >"$folder/stdout" 2>"$folder/stderr" || status=$?
}

begin confined_job
run_confined job
wants_status 0
wants_output ''
wants_error ''
wants_text job.bbl $'a\n'
wants_text job.blg "$first_log"
wants_clean
end

begin confined_options
cp "$examples"/cross_reference/*.{aux,bib,bst} .
"$program" --min-crossrefs 1 --line 40 job >/dev/null || true
mv job.bbl wanted
run_confined job --min-crossrefs=1 --line=40
cmp -s wanted job.bbl || complaints+=('the list is another than with the options')
end

for words in '' 'job --dir=.' 'job --budget=7' 'job --nosuch' 'job other' '.job' '../work/job' '/job' 'a/job' 'a..job'; do
    begin "confined_refused_$((passed + failed))"
    run_confined $words
    wants_refusal bibtex-confined:
    end
done

begin confined_without_a_job
echo 'old list' >nosuch.bbl
run_confined nosuch
wants_status 3
wants_error_with "I couldn't open file name \`nosuch.aux'"
wants_text nosuch.bbl $'old list\n'
end

# What the program refuses touches nothing: a value, and a job's name that isn't UTF-8.
for words in --line=19 --text=latin1 --min-crossrefs=x --entry-max=0 --global-max=1000001; do
    begin "confined_value_$((passed + failed))"
    echo 'old list' >job.bbl
    echo 'old log' >job.blg
    run_confined job "$words"
    wants_status 1
    wants_error_with "error: invalid value '${words#*=}' for '${words%=*} "
    wants_error_with 'bibtex-confined: the program refuses the words'
    wants_text job.bbl $'old list\n'
    wants_text job.blg $'old log\n'
    wants_clean
    end
done

begin confined_name_that_is_no_text
mv job.aux $'\xff.aux'
echo 'old list' >$'\xff.bbl'
run_confined $'\xff'
wants_status 1
wants_error_with 'bibtex-confined: the program refuses the words'
wants_text $'\xff.bbl' $'old list\n'
[ ! -e $'\xff.blg' ] || complaints+=('there is a log')
end

# Another program than bibtex-proved may refuse the program's own words: that touches nothing either.
begin confined_program_of_other_words
printf '#!/bin/sh\necho "unrecognized option $1" >&2\nexit 1\n' >refuses
chmod +x refuses
echo 'old list' >job.bbl
BIBTEX_PROGRAM=./refuses run_confined job
wants_status 1
wants_error_with 'unrecognized option --dir'
wants_text job.bbl $'old list\n'
[ ! -e job.blg ] || complaints+=('there is a log')
wants_clean
end

# Options come after the job.
for words in '--line=30 job' --text=utf8; do
    begin "confined_option_first_$((passed + failed))"
    run_confined $words
    wants_error_with 'the job is the first word, and options come after it'
    wants_clean
    end
done

# It says its own name, by whichever one it is called.
begin confined_by_another_name
ln -s "$confined" bibtex
for word in --help -help -h --version; do
    status=0
    ./bibtex "$word" </dev/null >"$folder/stdout" 2>"$folder/stderr" || status=$?
    wants_status 0
    wants_error ''
    grep -qE '^(Usage: )?bibtex-confined ' "$folder/stdout" || complaints+=("$word prints $(cat "$folder/stdout")")
done
end

# What the program is started with: the limits, the words, and no input.
begin confined_limits
cat >shows <<'END'
#!/bin/sh
echo "Ended: finished" >job.blg
{
    for limit in c v f n; do
        echo "$limit $(ulimit -$limit)"
    done
    echo "t $(ulimit -S -t) $(ulimit -H -t)"
    cat
    echo "$*"
} >&2
END
chmod +x shows
ulimit -S -c "$(ulimit -H -c)"
BIBTEX_PROGRAM=./shows run_confined job --text=utf8 <<<'an input'
wants_status 0
wants_error 'c 0
v 900000
f 80000
n 64
t 10 11
--dir . --terse --budget 100000000 --text=utf8 -- job
'
wants_clean
# Words of the command line change the limits.
BIBTEX_PROGRAM=./shows run_confined job --limit-memory=800000 --limit-output=100 --limit-processor=3 --limit-steps=7
wants_status 0
wants_error 'c 0
v 800000
f 200
n 64
t 3 4
--dir . --terse --budget 7 -- job
'
end

# One process beside its own, and no file but the two outputs.
if command -v strace >/dev/null; then
    begin confined_processes
    strace -f -o "$folder/calls" -e trace=execve,openat,open,creat,mkdir,mkdirat,symlink,symlinkat,link,linkat,unlink,unlinkat,rename,renameat2 "$confined" job </dev/null
    [ "$(grep -c 'execve(' "$folder/calls")" -eq 2 ] || complaints+=("these programs ran: $(grep 'execve(' "$folder/calls")")
    ! grep -E ' (mkdir|symlink|link|unlink|rename|creat)' "$folder/calls" || complaints+=('a folder or a link was made')
    made=$(sed -n 's/.*open[at]*([^"]*"\([^"]*\)".*O_CREAT.*/\1/p' "$folder/calls" | sort -u | tr '\n' ' ')
    [ "$made" = './job.bbl ./job.blg ' ] || complaints+=("these files were made: $made")
    wants_files d.bib job.aux job.bbl job.blg s.bst
    end
    begin confined_asks_for_nothing_else
    python3 "$here/asked.py" "$confined" 200 >asked || complaints+=("$(head -c 2000 asked)")
    end
else
    echo 'left out: what is run, made and opened (without strace)'
fi

# No byte of a name acts on a terminal.
begin confined_control_bytes
printf '\\bibdata{\033[31m/\177d}\n' >job.aux
run_confined job
wants_refusal "the name '?[31m/?d.bib' isn't one of a file of this folder"
end

for name in 'two words' $'two\nlines' -job '*' '$HOME' 'a"b' "a'b" '`b`' j.aux 'ü'; do
    begin "confined_job_$((passed + failed))"
    mv -- job.aux "$name.aux"
    run_confined "$name.aux"
    wants_status 0
    wants_error ''
    wants_text "./$name.bbl" $'a\n'
    wants_clean
    end
done

# run_confined_as_other: runs it as a user who owns nothing.
run_confined_as_other() {
    status=0
    setpriv --reuid 65534 --regid 65534 --clear-groups env BIBTEX_PROGRAM="$room/program" "$confined" job \
        </dev/null >"$folder/stdout" 2>"$folder/stderr" || status=$?
}

# An output that can't be written is a device error, with a reason, however the shell takes it.
if [ "$(id -u)" -eq 0 ] && setpriv --reuid 65534 --regid 65534 --clear-groups test -r "$confined" 2>/dev/null; then
    chmod a+rx "$room"
    chmod 777 "$TMPDIR"
    install -m 755 "$program" "$room/program"
    for output in job.bbl job.blg; do
        begin "confined_${output}_of_another"
        chmod 777 .
        echo 'old' >"$output"
        chmod 644 "$output"
        run_confined_as_other
        wants_status 6
        wants_error_with "bibtex-confined: $output can't be written: Permission denied"
        wants_text "$output" $'old\n'
        [ "$(ls job.b[bl][lg])" = "$output" ] || complaints+=('there is another output')
        wants_clean
        end
    done

    # A list isn't touched where the log can't be made or written.
    begin confined_folder_of_another
    chmod 755 .
    leave_old
    chmod 666 job.bbl
    rm job.blg
    run_confined_as_other
    wants_status 6
    wants_error_with "bibtex-confined: job.blg can't be written: Permission denied"
    wants_text job.bbl $'old list\n'
    end

    # An input that may not be read isn't there, and the top file isn't either.
    begin confined_style_of_another
    chmod 777 .
    chmod 600 s.bst
    run_confined_as_other
    wants_status 2
    wants_error 'bibtex-confined: there are error messages in job.blg
'
    grep -qx "Error--I couldn't open style file s.bst" job.blg || complaints+=("the log is $(cat job.blg)")
    wants_clean
    chmod 600 job.aux
    run_confined_as_other
    wants_status 3
    wants_error_with "I couldn't open file name \`job.aux'"
    end
else
    echo 'left out: outputs of another user (needs root and setpriv)'
fi

begin confined_errors_and_budget
printf '\\citation{k}\n\\bibdata{d,e}\n\\bibstyle{s}\n' >job.aux
run_confined job
wants_status 2
wants_error 'bibtex-confined: there are error messages in job.blg
'
use_style 'FUNCTION {f}{f} EXECUTE {f}'
run_confined job
wants_status 2
end

# What can't be looked at or started touches nothing.
begin confined_program_that_cannot_be_started
leave_old
printf '#!/nosuch/sh\n' >broken
chmod +x broken
BIBTEX_PROGRAM=./broken run_confined job
wants_status 6
wants_error_with 'bibtex-confined: the program ./broken can'"'"'t be started: No such file or directory'
wants_old
end

# A program's file that is damaged is handed to no shell: an upgrade on a full disk may leave it so.
for damage in empty zeros comment cut; do
    begin "confined_program_$damage"
    leave_old
    mkdir "$folder/bin"
    case $damage in
    empty) : >"$folder/bin/bibtex-proved" ;;
    zeros) head -c 10000 /dev/zero >"$folder/bin/bibtex-proved" ;;
    comment) echo '# a comment' >"$folder/bin/bibtex-proved" ;;
    cut) head -c 100 "$program" >"$folder/bin/bibtex-proved" ;;
    esac
    chmod +x "$folder/bin/bibtex-proved"
    status=0
    env -u BIBTEX_PROGRAM PATH="$folder/bin:/usr/bin:/bin" "$confined" job </dev/null >"$folder/stdout" 2>"$folder/stderr" || status=$?
    wants_status 6
    wants_error_with "bibtex-proved can't be started: Exec format error"
    wants_old
    end
done

# A program that says it ran the job, and left no log of that, didn't: no old list stands for the new one. So it is with a log of another run, and with one that breaks off.
for said in 0 2 3 4; do
    for left in ':' 'echo "The style file: s.bst" >job.blg'; do
        begin "confined_no_log_${said}_$((passed + failed))"
        echo 'old list' >job.bbl
        echo 'Ended: finished, warnings 0, errors 0, steps 4' >job.blg
        printf '#!/bin/sh\n%s\nexit %s\n' "$left" "$said" >claims
        chmod +x claims
        BIBTEX_PROGRAM=./claims run_confined job
        wants_status 6
        wants_error "bibtex-confined: the program ended with status $said, and job.blg isn't the log of a run that came to its end
"
        wants_text job.bbl ''
        end
    done
done

# However soon a job is run again, its log is known for the new one.
begin confined_again_and_again
for turn in {1..20}; do
    run_confined job
    wants_status 0
done
wants_text job.bbl $'a\n'
end

gcc -O2 -Wall -Werror -shared -fPIC -o "$room/fail_confined_open.so" "$sources/tests/fail_open.c" -ldl
for reason in 'EMFILE 6 Too many open files' 'EIO 6 Input/output error' 'ENOMEM 5 Cannot allocate memory' '40 1 Too many levels of symbolic links' \
    'EACCES 3 I couldn'"'"'t open file name `job.aux'"'"; do
    read -r number wanted words <<<"$reason"
    begin "confined_file_that_cannot_be_opened_$number"
    leave_old
    FAIL_OPEN=job.aux FAIL_REASON=$number LD_PRELOAD=$room/fail_confined_open.so run_confined job
    wants_status "$wanted"
    wants_error_with "$words"
    wants_old
    end
done

begin confined_program_that_is_not_there
leave_old
for name in ./nosuch nosuch s.bst ./s.bst .; do
    BIBTEX_PROGRAM=$name run_confined job
    wants_status 1
    wants_error_with "bibtex-confined: there is no program $name; BIBTEX_PROGRAM can name it"
done
wants_old
end

# The job's folder is a stranger's: a program there isn't found by a search path that has the present folder.
begin confined_search_path
printf '#!/bin/sh\n: >stranger\n' >bibtex-proved
chmod +x bibtex-proved
for path in '' . :/nosuch ./ "$folder/nosuch:"; do
    status=0
    env -u BIBTEX_PROGRAM PATH="$path" "$confined" job </dev/null >"$folder/stdout" 2>"$folder/stderr" || status=$?
    wants_status 1
    wants_error_with 'there is no program bibtex-proved'
done
[ ! -e stranger ] || complaints+=("the stranger's program was run")
mkdir "$folder/bin"
ln -s "$program" "$folder/bin/bibtex-proved"
status=0
env -u BIBTEX_PROGRAM PATH=".:$folder/bin" "$confined" job </dev/null >"$folder/stdout" 2>"$folder/stderr" || status=$?
wants_status 0
end

# Nothing of the caller's environment changes a limit, or is needed.
begin confined_environment
use_style 'FUNCTION {f}{{#1} {#1 pop$} while$} EXECUTE {f}'
BIBTEX_CONFINED_RUNS=yes TMPDIR=/nosuch budget=1 run_confined job --limit-steps=1000
wants_status 4
wants_error 'bibtex-confined: the style took 1000 steps, and wanted more
'
end

for option in --limit-memory=0 --limit-memory=19999 --limit-clock=-1 --limit-steps= --limit-names=x --limit-output=unlimited --limit-processor=1e3 \
    --limit-aux=1000000000001 --limit-other=3 --limit-memory --limit-=3; do
    begin "confined_limit_$((passed + failed))"
    leave_old
    run_confined job "$option"
    wants_status 1
    wants_error_with 'limit'
    wants_old
    end
done

# Each limit is met where its word says.
begin confined_limits_by_words
leave_old
run_confined job --limit-names=1
wants_status 1
wants_error_with 'the .aux files name more than 1 files'
wants_old
head -c 2000 /dev/zero | tr '\0' '%' >>job.aux
run_confined job --limit-aux=1
wants_error_with 'job.aux has 1 KB or more'
wants_old
head -c 2000 /dev/zero >>d.bib
run_confined job --limit-input=1
wants_error_with 'd.bib has 1 KB or more'
wants_old
use_style 'FUNCTION {f}{{#1} {"a line" write$ newline$} while$} EXECUTE {f}'
run_confined job --limit-output=2
wants_status 6
wants_error_with 'job.bbl would have more than 2 KB'
[ "$(stat -c %s job.bbl)" -le 2048 ] || complaints+=("the list has $(stat -c %s job.bbl) bytes")
use_style 'FUNCTION {f}{{#1} {#1 pop$} while$} EXECUTE {f}'
run_confined job --limit-processor=1 --limit-steps=1000000000000
wants_status 152
wants_error_with 'the job took 1 processor seconds, and wanted more'
end

# waits_there: a program that waits beside a child of its own.
waits_there() {
    printf '#!/bin/sh\necho $$ >leader\nsleep 98765 &\necho $! >child\nwait\n' >waits
    chmod +x waits
}

# is_running FILE: the process runs whose number stands there.
is_running() {
    local state
    state=$(sed -n 's/^State:\t\(.\).*/\1/p' "/proc/$(cat "$1")/status" 2>/dev/null) && [ -n "$state" ] && [ "$state" != Z ]
}

# wants_ended: of the program that waits no process is left, at the latest after two seconds.
wants_ended() {
    local name moment
    for name in leader child; do
        for moment in {1..20}; do
            is_running "$name" || continue 2
            sleep 0.1
        done
        complaints+=("the $name is running")
    done
}

# The program ends with each signal to this one, and nothing is left over. (A background process of a shell ignores INT and QUIT, and so does
# this program then: so Python gives it the signals' defaults.)
for signal in TERM HUP PIPE INT QUIT; do
    begin "confined_signal_$signal"
    waits_there
    leave_old
    number=$(kill -l "$signal")
    BIBTEX_PROGRAM=./waits python3 "$here/signalled.py" "$number" child "$confined" job >ended 2>"$folder/stderr"
    [ "$(cat ended)" = "-$number" ] || complaints+=("it ended with $(cat ended), not -$number")
    wants_error "bibtex-confined: the job was ended by signal $number
"
    wants_ended
    wants_text job.bbl ''
    wants_text job.blg ''
    end
done

begin confined_leaves_no_process
printf '#!/bin/sh\necho $$ >leader\nsleep 98765 &\necho $! >child\necho "Ended: finished" >job.blg\n' >leaves
chmod +x leaves
BIBTEX_PROGRAM=./leaves run_confined job
wants_status 0
wants_ended
end

begin confined_killed
waits_there
BIBTEX_PROGRAM=./waits python3 "$here/signalled.py" 9 child "$confined" job >ended
# (the program ends with it; what that started is its own)
kill "$(cat child)"
wants_ended
end

begin confined_time_is_up
waits_there
leave_old
BIBTEX_PROGRAM=./waits run_confined job --limit-clock=1
wants_status 124
wants_error 'bibtex-confined: the 1 seconds are up
'
wants_ended
wants_text job.bbl ''
wants_text job.blg ''
end

# A reason that nobody reads, and closed streams.
begin confined_into_a_closed_pipe
cite nosuch
{ sleep 0.2; "$confined" job 2>&1; "$confined" .job 2>&1; } | true || true
wants_clean
end

begin confined_with_closed_streams
for closed in '<&-' '>&-' '2>&-' '<&- >&- 2>&-'; do
    rm -f job.bbl
    status=0
    eval "\"$confined\" job $closed" || status=$?
    wants_status 0
    wants_text job.bbl $'a\n'
done
wants_files d.bib job.aux job.bbl job.blg s.bst
end

# The reason stands also at the end of a file that is longer than an output may be.
begin confined_into_a_long_file
printf '\\citation{k}\n\\bibdata{d,e}\n\\bibstyle{s}\n' >job.aux
head -c 5000 /dev/zero >reasons
status=0
"$confined" job --limit-output=1 </dev/null >"$folder/stdout" 2>>reasons || status=$?
wants_status 2
tail -c +5001 reasons | cmp -s - <(echo 'bibtex-confined: there are error messages in job.blg') || complaints+=("the reason is $(tail -c +5001 reasons)")
end

# What the program prints acts on no terminal, and is bounded.
begin confined_program_that_prints
printf '#!/bin/sh\nprintf "\\033[31m\\302\\233\\342\\200\\256x\\n" >&2\nhead -c 1000000 /dev/zero | tr "\\0" y\nexit 5\n' >prints
chmod +x prints
BIBTEX_PROGRAM=./prints run_confined job
wants_status 5
wants_output ''
wants_error_with '?[31m??x'
[ "$(stat -c %s "$folder/stderr")" -le 11000 ] || complaints+=("it printed $(stat -c %s "$folder/stderr") bytes")
wants_error_with 'bibtex-confined: the job wants more than 900000 KB of memory'
end

begin confined_control_characters
printf '\\bibdata{\302\233\342\200\256/d}\n' >job.aux
run_confined job $'--min-crossrefs=\033[31m'
wants_refusal "the name '??/d.bib' isn't one of a file of this folder"
end

# A file may have a byte less than its limit.
begin confined_limits_to_the_byte
leave_old
cp job.aux short.aux
{ cat short.aux; head -c $((1023 - $(stat -c %s short.aux))) /dev/zero | tr '\0' '%'; } >job.aux
run_confined job --limit-aux=1
wants_status 0
leave_old
printf '%%' >>job.aux
run_confined job --limit-aux=1
wants_status 1
wants_error 'bibtex-confined: job.aux has 1 KB or more
'
wants_old
end

# A long file without bytes is measured, not read.
begin confined_sparse
truncate -s 200G d.bib
leave_old
run_confined job
wants_status 1
wants_error 'bibtex-confined: d.bib has 100000 KB or more
'
wants_old
end

# What a job may not name: each command with each kind of name, also after a byte 0, in an included file.
for name in ../d /d sub/d .d d/../d '..' 'a..b'; do
    for line in '\\bibdata{d,%s}\n' '\\bibdata{d}\n\\bibstyle{%s}\n' '\\@input{%s.aux}\n' '\\bibdata{a\0,%s}\n'; do
        begin "confined_name_$((passed + failed))"
        echo '\@input{one.aux}' >job.aux
        printf "$line" "$name" >one.aux
        run_confined job
        wants_refusal "isn't one of a file of this folder"
        end
    done
done

# No link is followed, and nothing but an ordinary file is opened.
for file in job.aux one.aux d.bib s.bst job.bbl job.blg; do
    for kind in link folder pipe; do
        begin "confined_${kind}_as_$file"
        mkdir outside
        printf '\\citation{k}\n\\@input{one.aux}\n\\bibdata{d}\n\\bibstyle{s}\n' >job.aux
        : >one.aux
        [ ! -e "$file" ] || mv "$file" outside
        case $kind in
        link) ln -s "outside/$file" "$file" ;;
        folder) mkdir "$file" ;;
        pipe) mkfifo "$file" ;;
        esac
        run_confined job
        wants_status 1
        wants_error_with "$file is"
        [ -z "$(find . -type f -name '*.b[bl][lg]')" ] || complaints+=("there is $(find . -type f -name '*.b[bl][lg]')")
        wants_clean
        end
    done
done

begin confined_too_many_names
printf '\\bibdata{%s}\n' "$(seq -s , 1001)" >>job.aux
run_confined job
wants_refusal 'name more than 1000 files'
end

# The attacks. Each writes its job into the present folder, over the files of the first example.
# style TEXT: the style is this, after a READ.
style() {
    printf 'ENTRY {title}{}{} FUNCTION {misc}{} STRINGS {s} READ %s\n' "$1" >s.bst
}

# long N: N times ten bytes.
long() {
    head -c "$(($1 * 10))" /dev/zero | tr '\0' x
}

attack_cheap_steps() { style 'FUNCTION {f}{{#1} {#1 pop$} while$} EXECUTE {f}'; }
attack_dear_steps() {
    style "FUNCTION {f}{ \"$(long 90000)\" {#1} {\"l\" change.case\$} while\$} EXECUTE {f}"
}
attack_list() { style 'FUNCTION {f}{"a line of the list" write$ newline$} FUNCTION {g}{f {#1} {f} while$} EXECUTE {g}'; }
attack_line() { style 'FUNCTION {f}{{#1} {"aaaaaaaaaaaaaaaaaaaaaaaaaaaaaaaaaaaa" write$} while$} EXECUTE {f}'; }
attack_log() { style 'FUNCTION {f}{{#1} {"a line of the log" warning$} while$} EXECUTE {f}'; }
attack_long_log() { style "FUNCTION {f}{ \"$(long 90000)\" 's := {#1} {s top\$} while\$} EXECUTE {f}"; }
attack_literals() { style "FUNCTION {f}{{#1} { \"$(long 90000)\" \"b\" * } while\$} EXECUTE {f}"; }
attack_recursion() { printf 'ENTRY {}{}{} FUNCTION {default.type}{call.type$ skip$} READ ITERATE {call.type$}\n' >s.bst; }
attack_variables() {
    cite '*'
    printf '@misc{k%s}\n' $(seq 40000) >d.bib
    {
        echo "ENTRY {}{}{$(seq -s ' ' -f 'v%g' 100 | sed 's/[0-9]*//g; s/v/&&/g')"
        for name in {a..z}{a..z}; do echo "v$name"; done
        echo '} FUNCTION {misc}{'
        for name in {a..z}{a..z}; do echo "\"$(long 25)\" \"$name\" * 'v$name :="; done
        echo '} READ ITERATE {misc}'
    } | sed 's/vv*  *//g' >s.bst
}
attack_sorts() {
    cite '*'
    printf '@misc{k%s}\n' $(seq 20000) >d.bib
    {
        printf 'ENTRY {}{}{} FUNCTION {misc}{cite$ #3 #1 substring$ %s sort.key$ :=} READ ITERATE {misc}\n' "'"
        head -n 200000 < <(yes 'SORT')
    } | sed "s/ ' sort/ 'sort/" >s.bst
}
attack_zeros() { truncate -s 3G d.bib; }
attack_zeros_as_style() { truncate -s 3G s.bst; }
attack_zeros_as_aux() { truncate -s 3G job.aux; }
attack_fewer_zeros() { truncate -s 90M d.bib; }
attack_fewer_zeros_as_style() { truncate -s 90M s.bst; }
attack_fewer_zeros_as_aux() { truncate -s 9M job.aux; }
# An error names the entry, whose key is as long as a database may be.
attack_errors_of_a_long_key() {
    cite '*'
    printf 'ENTRY {}{}{} FUNCTION {f}{{#1} {if$ if$ if$ if$} while$} READ ITERATE {f}\n' >s.bst
    echo "@misc{$(long 5000000)}" >d.bib
}
attack_aux_errors() {
    printf '\\citation{k%s}\n\\bibdata{d}\n\\bibstyle{s}\n' "$(head -c 9000000 < <(yes ,K | tr -d '\n'))" >job.aux
}
# Strings whose names fall on one place of the table, used again and again.
attack_chosen_keys() {
    local values
    "$room/collide" 3000 >keys
    values=$(paste -s -d '#' keys)
    cite '*'
    printf 'ENTRY {title}{}{} FUNCTION {misc}{} READ\n' >s.bst
    {
        sed 's/.*/@string{& = {}}/' keys
        for number in {1..1500}; do
            echo "@misc{k$number, title = $values}"
        done
    } >d.bib
}
attack_many_databases() {
    for number in {1..200}; do
        echo "@misc{k, note = {$(long 2000)" >"d$number.bib"
    done
    printf '\\citation{k}\n\\bibdata{%s}\n\\bibstyle{s}\n' "$(seq -s , -f 'd%g' 200)" >job.aux
}
attack_missing_parent() {
    cite '*'
    printf 'ENTRY {title}{}{} FUNCTION {misc}{} READ\n' >s.bst
    {
        echo "@string{p = {$(long 90000)}}"
        printf '@misc{k%s, crossref = p}\n' $(seq 2000)
    } >d.bib
}
attack_repeated_fields() {
    key=$(long 5000)
    cite "$key"
    printf 'ENTRY {title}{}{} FUNCTION {misc}{} READ\n' >s.bst
    {
        echo "@misc{$key, title = 1"
        head -n 12500 < <(yes ', title = 2')
        echo '}'
    } >d.bib
}
attack_one_string_used_again() {
    cite '*'
    printf 'ENTRY {title}{}{} FUNCTION {misc}{} READ\n' >s.bst
    {
        echo "@string{s = {$(long 90000)}}"
        printf '@misc{k%s, title = s}\n' $(seq 8000)
    } >d.bib
}
# This style looks for ever for a letter in an author without one.
attack_style_of_tex_live() {
    cp "$(kpsewhich plain-letters.bst)" s.bst
    echo '@misc{k, author = {12}, title = {A}}' >d.bib
}
# A program that does nothing for too long.
attack_waiting() {
    printf '#!/bin/sh\ncase $2 in */nowhere) exit 6 ;; esac\nsleep 100\n' >waits
    chmod +x waits
}
# Names as long as an .aux file may be, for a shell that reads them byte by byte.
attack_long_name() {
    printf '\\citation{k}\n\\bibdata{d,%s}\n\\bibstyle{s}\n' "$(long 900000)" >job.aux
}
attack_long_names() {
    cite k
    for number in {1..200}; do
        printf '\\@input{%s.aux}\n' "$number" >>job.aux
        printf '\\bibdata{%s}\n' "$(long 20000)" >"$number.aux"
    done
}
attack_long_path() {
    printf '\\citation{k}\n\\bibdata{%sd}\n' "$(printf 'a/../%.0s' {1..500})" >job.aux
}
attack_empty_names() {
    printf '\\citation{k}\n\\bibdata{d%s}\n' "$(head -c 3000000 /dev/zero | tr '\0' ,)" >job.aux
}
attack_includes() {
    for number in {1..100}; do
        echo "\\@input{$((number + 1)).aux}" >"$number.aux"
    done
    mv 1.aux job.aux
}

# start_attack NAME: writes the job and an old log, and runs it in the background.
start_attack() {
    mkdir "$room/attacks/$1"
    cd "$room/attacks/$1"
    cp "$examples"/first/*.{aux,bib,bst} .
    "attack_$1"
    echo 'old log' >job.blg
    local BIBTEX_PROGRAM=$program
    [ ! -f waits ] || BIBTEX_PROGRAM=./waits
    BIBTEX_PROGRAM=$BIBTEX_PROGRAM python3 "$here/measured.py" stdout stderr "$confined" job >measured &
    cd "$room"
}

# list_of NAME: what the attack's whole list is, without end where the style writes without end. Most write nothing.
list_of() {
    case $1 in
    list) yes 'a line of the list' ;;
    line) yes a | tr -d '\n' ;;
    style_of_tex_live)
        # (this one begins alike where the author has a letter)
        mkdir lettered
        cp job.aux s.bst lettered
        echo '@misc{k, author = {A}, title = {A}}' >lettered/d.bib
        "$program" --dir lettered --terse job
        cat lettered/job.bbl
        ;;
    fewer_zeros | fewer_zeros_as_* | many_databases | one_string_used_again | long_name | long_names) echo a ;;
    esac
}

# wants_list_begun NAME: its list is a beginning of that.
wants_list_begun() {
    cmp -s <(list_of "$1" | head -c "$(stat -c %s job.bbl)") job.bbl || complaints+=("the list is no beginning of the right one: $(head -c 200 job.bbl)")
}

# wants_bounded NAME STATUS..: the attack ended so, within the bounds, and says why. Where the machine has much other work, the seconds of
# the clock may be up before anything else.
wants_bounded() {
    local seconds memory output
    read -r status seconds memory <measured || complaints+=('it was not measured')
    output=$(find . -name 'job.b[bl][lg]' -o -name 'std*' | xargs cat | wc -c)
    [[ " ${*:2} 124 " == *" $status "* ]] || complaints+=("the exit status is $status, not one of ${*:2}")
    [ "$seconds" -le 60 ] || complaints+=("it took $seconds seconds")
    [ "$memory" -le 1000000 ] || complaints+=("it took $memory KB")
    [ "$output" -le 100000000 ] || complaints+=("it wrote $output bytes")
    [ "$status" -eq 0 ] || grep -q '^bibtex-confined: ' stderr || complaints+=("standard error has no reason: $(head -c 500 stderr)")
    # (where the clock's seconds were up before the run, nothing is touched)
    if [ "$status" -ne 1 ] && { [ "$status" -ne 124 ] || [ -e job.bbl ]; }; then
        ! grep -qx 'old log' job.blg || complaints+=('the old log is left')
        wants_list_begun "$1"
    fi
    echo "        status $status, $seconds s, $memory KB, $output bytes; $(tail -n 1 stderr)"
}

# judge_attack NAME STATUS..
judge_attack() {
    begin "confined_attack_$1"
    cd "$room/attacks/$1"
    wants_bounded "$@"
    end
}

# Statuses: 1 a file that is too long, 3 a limit, 4 the budget, 5 memory, 6 an output that is too long; 124, 137 and 152 the time.
attacks='
waiting 124
cheap_steps 4 152 137
dear_steps 152 137
list 6
line 6
log 6 152 137
long_log 6 5
literals 5 3
recursion 3
variables 5
sorts 152 137
errors_of_a_long_key 5 6
aux_errors 5 6
zeros 1
zeros_as_style 1
zeros_as_aux 1
fewer_zeros 0
fewer_zeros_as_style 2
fewer_zeros_as_aux 0
many_databases 2
missing_parent 5 6 152 137
repeated_fields 5 6
one_string_used_again 0 152 137
includes 3
long_name 2
long_names 2
long_path 1
empty_names 1 124
'
if command -v gcc >/dev/null && gcc -O2 -Wall -Werror -o "$room/collide" "$sources/tests/speed/collide.c"; then
    attacks+='chosen_keys 152 137
'
else
    echo 'left out: keys that are chosen to collide (without gcc)'
fi
if has kpsewhich && kpsewhich plain-letters.bst >/dev/null; then
    attacks+='style_of_tex_live 4 6 152 137'
fi

mkdir "$room/attacks"
# Two at once beside the one that waits: each may take 1 GB.
while read -r name statuses; do
    [ -n "$name" ] || continue
    while [ "$(jobs -rp | wc -l)" -ge 3 ]; do
        wait -n
    done
    start_attack "$name"
done <<<"$attacks"
wait
while read -r name statuses; do
    [ -z "$name" ] || judge_attack "$name" $statuses
done <<<"$attacks"
begin confined_leaves_nothing
wants_clean
end
rm -rf "$room/attacks"
