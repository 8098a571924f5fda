# The log has the messages in the original's shapes, each once and at its place, and what other programs look for is found: in the .blg, and on standard output where
# that is no terminal and nothing is explained.

# messages_of LOG: what comes after the names of the files.
messages_of() {
    log_of "$1" | grep -vE '^(The top-level auxiliary file|A level-[0-9]+ auxiliary file|The style file|Database file #[0-9]+|Ended): '
}

# wants_shapes TEXT: these are the lines of the messages, in the log and on standard output.
wants_shapes() {
    messages_of job.blg >found
    wants_text found "$1"
    messages_of "$folder/stdout" >found
    wants_text found "$1"
}

begin shapes_of_commands
write_commands
run_search job
wants_status 2
wants_shapes "White space in argument---line 1 of file job.aux
 : \\citation{k,
 :              j}
I'm skipping whatever remains of this command
Case mismatch error between cite keys k and K
---line 3 of file job.aux
 : \\citation{K
 :            }
I'm skipping whatever remains of this command
I couldn't open auxiliary file nosuch.aux
---line 4 of file job.aux
 : \\@input{nosuch.aux
 :                   }
I'm skipping whatever remains of this command
Illegal, another \\bibdata command---line 6 of file job.aux
 : \\bibdata
 :         {f}
I'm skipping whatever remains of this command
I couldn't open style file t.bst
---line 7 of file job.aux
 : \\bibstyle{t
 :            }
I'm skipping whatever remains of this command
(There were 5 error messages)
"
end

begin shapes_of_a_database
write_dirty
run_search job
wants_status 2
wants_messages job.blg 'Warning--string name "zz" is undefined--line 1 of file d.bib' "Warning--I'm ignoring k's extra \"title\" field--line 1 of file d.bib" \
    'Error--I was expecting an =--line 3 of file d.bib' 'Error--Repeated entry--line 4 of file d.bib' "Warning--entry type for \"two\" isn't style-file defined--line 5 of file d.bib" \
    'Error--A bad cross reference--entry "two" refers to entry "p", which doesn'"'"'t exist' 'Warning--you'"'"'ve nested cross references--entry "child" refers to entry "mid"' \
    'Warning--I didn'"'"'t find a database entry for "nosuch"' 'Warning--I didn'"'"'t find a database entry for "p"' \
    'Warning--empty title in bare' "Error--You can't pop an empty literal stack while executing pop\$"
messages job.blg >wanted
messages "$folder/stdout" | cmp -s - wanted || complaints+=("printed was $(messages "$folder/stdout")")
[ "$(tail -n 1 "$folder/stdout")" = '(There were 4 error messages)' ] || complaints+=('how many there are is not printed last')
end

begin shapes_of_a_style
write_style
run_search job
wants_status 2
wants_messages job.blg 'Error--Illegal integer--line 2 of file s.bst' 'Error--nosuch is an unknown function--line 2 of file s.bst' 'Error--I was expecting a }--line 5 of file s.bst' \
    'Error--nosuch is an unknown function--line 8 of file s.bst'
end

begin shapes_again
cite nosuch
run_search job
run_search job
wants_status 0
wants_log job.blg "${found_log}Warning--I didn't find a database entry for \"nosuch\"
Ended: finished, warnings 1, errors 0, steps 4
(There was 1 warning)
"
end

begin shapes_at_a_budget
use_style 'EXECUTE {skip$}'
run_search -budget=0 job
wants_status 4
wants_log job.blg "${found_log}Ended: stopped, warnings 0, errors 0, steps 0
Sorry---you've exceeded BibTeX's budget of 0 steps
while executing---line 1 of file s.bst
"
end

begin shapes_at_a_limit
write_limit
run_search job
wants_status 3
[ "$(tail -n 2 job.blg)" = "Sorry---you've exceeded BibTeX's limit string (a string of more than 1,000,000 bytes)
while executing---line 1 of file s.bst" ] || complaints+=("the log ends $(tail -n 2 job.blg)")
end

# No message stands twice, and printed is what the log has, but for the names of files with -terse.
for name in commands style dirty explained empty operands unclosed; do
    begin "each_message_once_$name"
    write_$name
    run_search job
    cmp -s <(log_of job.blg) <(log_of "$folder/stdout") || complaints+=('what was printed is not the log')
    cp job.blg whole.blg
    "$program" -- job >/dev/null 2>&1 || true
    messages job.blg >wanted
    messages whole.blg | cmp -s - wanted || complaints+=("the messages are $(messages whole.blg | diff - wanted | head -n 5)")
    run_search -terse job
    messages "$folder/stdout" | cmp -s - wanted || complaints+=("with -terse printed was $(messages "$folder/stdout" | diff - wanted | head -n 5)")
    end
done

# A line that a style forges in the log shows nothing of a file that isn't the job's, and a long line is cut.
begin shapes_and_other_files
echo secret >other.bib
use_style '"x" #10 int.to.chr$ * "Error--I was expecting an =--line 1 of file other.bib" * warning$'
sed -i 's/READ .*/FUNCTION {f} {&} READ EXECUTE {f}/; s/READ "x"/"x"/' s.bst
{
    printf '@misc{j note'
    letters 3000 x
    echo ' 1}'
} >>d.bib
run_search job
! grep -q secret job.blg || complaints+=('a line of another file is in the log')
[ "$(wc -L <job.blg)" -lt 1100 ] || complaints+=('a long line was not cut')
end

# write_jobs JOB..: the jobs in which editors and tools look for messages (parsers.py), each in a folder of its name.
write_jobs() {
    for name in "$@"; do
        mkdir "$name"
        cp job.aux d.bib s.bst "$name"
        (cd "$name" && "write_$name")
    done
}

begin tools_find_messages
write_jobs commands style dirty empty limit
for name in commands style dirty empty limit; do
    cd "$name"
    run_search job
    cp "$folder/stdout" printed
    cd ..
done
python3 "$here/parsers.py" commands style dirty empty limit >found || complaints+=("$(cat found)")
python3 "$here/parsers.py" --printed commands style dirty empty limit >found || complaints+=("on standard output: $(cat found)")
end

# The table is right only if it finds the same in the original's log, which has no such limit.
if has bibtex; then
    begin tools_find_the_same_in_the_original
    write_jobs commands style dirty empty
    for name in commands style dirty empty; do
        # (its status is not 0: each of these jobs has errors)
        (cd "$name" && bibtex job >printed) || true
    done
    python3 "$here/parsers.py" commands style dirty empty >found || complaints+=("$(cat found)")
    python3 "$here/parsers.py" --printed commands style dirty empty >found || complaints+=("on standard output: $(cat found)")
    end

    # Where our words are the original's, the lines are the original's too: the line of the file up to the place, and what follows below it.
    begin lines_of_the_original
    write_commands
    (bibtex job >printed) || true
    sed -n '/^White space/,/^I.m skipping/p; /^I couldn.t open style/,/^I.m skipping/p' job.blg >wanted
    run_search job
    sed -n '/^White space/,/^I.m skipping/p; /^I couldn.t open style/,/^I.m skipping/p' job.blg >found
    cmp -s wanted found || complaints+=("the lines are $(cat found), and the original's $(cat wanted)")
    end
else
    echo 'left out: the table of expressions with the original (without bibtex)'
fi

# Of very many messages all are in the log.
begin very_many_messages
write_many
run_search job
wants_status 2
[ "$(tail -n 1 job.blg)" = '(There were 100000 error messages)' ] || complaints+=("the log ends $(tail -n 1 job.blg | cut -c 1-200)")
[ "$(messages job.blg | wc -l)" -eq 100000 ] || complaints+=("the log has $(messages job.blg | wc -l) messages")
[ "$(stat -c %s job.blg)" -lt 150000000 ] || complaints+=("the log has $(stat -c %s job.blg) bytes")
end

# Vim's `:make` reads what is printed: the error format that its users have for BibTeX finds the same places as with the original, and our own each message.
if there_is vim "what vim's :make finds"; then
    # made_by PROGRAM: the list of errors that vim has after it called the program.
    made_by() {
        vim -u NONE -N -es -i NONE --cmd 'set nomore' -c "set makeprg=$1\\ job" \
            -c 'set errorformat=%W%>Warning--%m,%Z--line\ %l\ of\ file\ %f,%E%>%m---line\ %l\ of\ file\ %f,%-G%.%#' \
            -c 'silent make!' -c 'call writefile(map(filter(getqflist(), "v:val.valid"), "bufname(v:val.bufnr) . \":\" . v:val.lnum . \":\" . v:val.type"), "quickfix")' -c 'qa!' \
            </dev/null >/dev/null 2>&1 || true
        cat quickfix
    }

    begin vim_make
    write_dirty
    LD_LIBRARY_PATH=$libraries made_by "$search" >found
    for place in d.bib:3:E d.bib:4:E; do
        grep -qx "$place" found || complaints+=("vim finds $(tr '\n' ' ' <found), and no $place")
    done
    if has bibtex; then
        made_by bibtex | sort >wanted
        sort found | comm -23 wanted - | grep . >lost && complaints+=("vim finds with the original also $(cat lost)")
    fi
    end

    # made_by_compiler FILE: the list of errors that vim has after its compiler for BibTeX, proved, was called for this file.
    made_by_compiler() {
        ln -sf "$search" bibtex-search
        PATH=$PWD:$PATH LD_LIBRARY_PATH=$libraries vim -u NONE -N -es -i NONE --cmd 'set nomore' --cmd "set runtimepath^=$sources/contrib/vim" \
            -c "edit ${1// /\\ }" -c 'compiler bibtex-search' -c 'silent make!' \
            -c 'call writefile(map(getqflist(), "v:val.valid . \" \" . bufname(v:val.bufnr) . \":\" . v:val.lnum . \":\" . v:val.type . \":\" . v:val.text"), "quickfix")' \
            -c 'qa!' </dev/null >/dev/null 2>&1 || true
        # (a text of two lines has a byte 0 between them)
        tr '\0' '|' <quickfix >listed && mv listed quickfix
    }

    begin vim_compiler
    printf '%s\n' '\citation{a,A,b,nokey}' '\@input{missing.aux}' '\bibdata{d,nofile}' '\bibstyle{s}' >job.aux
    printf '%s\n' 'ENTRY {title} {} {}' 'FUNCTION {misc} {title #1 + pop$}' 'FUNCTION {f} {nosuch}' 'READ' 'ITERATE {call.type$}' >s.bst
    printf '%s\n' '@misc{a, title = {T}}' '@misc{b, title = {T} author = {A}}' '@misc{b, title = foo}' >d.bib
    made_by_compiler job.aux
    wants_text quickfix "1 job.aux:1:E:Case mismatch error between cite keys a and A
1 job.aux:2:E:I couldn't open auxiliary file missing.aux
1 job.aux:3:E:I couldn't open database file nofile.bib
1 s.bst:3:E:nosuch is an unknown function
1 d.bib:2:E:I was expecting a , or a }
1 d.bib:3:E:Repeated entry
1 job.aux:0:W:I didn't find a database entry for \"nokey\"
1 s.bst:2:E:\"T\" is not an integer (+) for entry a
1 s.bst:2:E:\"T\" is not an integer (+) for entry b
"
    end

    # What a style shows by `top$`, and what is said beside a message, are no messages; a cross-reference is one of two lines; a name may have whitespace.
    begin vim_compiler_of_other_lines
    cite b,c
    mv job.aux 'my paper.aux'
    printf '%s\n' 'ENTRY {title} {} {}' 'FUNCTION {misc} {}' 'FUNCTION {shows} {"-- a style, version 1.14 --" top$ "" top$}' 'READ' 'EXECUTE {shows}' 'ITERATE {call.type$}' >s.bst
    printf '%s\n' '@misc{b, title = {T}, crossref = {nope}}' '@misc{c,' '  note' '= 1, }' '@misc{d, crossref = {e}}' '@misc{x, note' '1}' >d.bib
    made_by_compiler 'my paper.aux'
    wants_text quickfix "1 d.bib:7:E:I was expecting an =
1 my paper.aux:0:E:entry \"b\"|refers to entry \"nope\", which doesn't exist
1 my paper.aux:0:W:I didn't find a database entry for \"nope\"
"
    # Of a faultless job with letters nothing is listed; of names and fields, not the style's place.
    printf '\\citation{k}\n\\bibdata{d}\n\\bibstyle{s}\n' >'my paper.aux'
    printf '%s\n' 'ENTRY {author title} {} {}' 'FUNCTION {misc} {author #1 "{f.}" format.name$ write$ newline$}' 'READ' 'ITERATE {call.type$}' >s.bst
    echo '@misc{k, author = {Émile Zola and Zoe, Émile}, title = {T}}' >d.bib
    sed -i 's/author #1/author #2/' s.bst
    made_by_compiler 'my paper.aux'
    wants_text quickfix ''
    grep -q 'The list is made' 'my paper.blg' || complaints+=('the list is not read by letters')
    printf '%s\n' 'ENTRY {author title} {} {}' 'FUNCTION {misc} {author #1 "{f.}" format.name$ write$ title #1 + pop$ newline$}' 'READ' 'ITERATE {call.type$}' >s.bst
    printf '%s\n' '@misc{k,' ' author = {A, B, C, D}, title = {T}}' >d.bib
    made_by_compiler 'my paper.aux'
    wants_text quickfix '1 my paper.aux:0:E:Too many commas in name 1 of "A, B, C, D" (format.name$) for entry k
1 s.bst:2:E:"T" is not an integer (+) for entry k
'
    echo '\relax' >'my paper.aux'
    made_by_compiler 'my paper.aux'
    wants_text quickfix "1 my paper.aux:0:E:I found no \citation commands
1 my paper.aux:0:E:I found no \bibdata command
1 my paper.aux:0:E:I found no \bibstyle command
"
    end
fi
