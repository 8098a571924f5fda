# Jobs of the whole language: what files say, how a run ends, and each limit of a run.

# executes TEXT: the style has one function with this body, and executes it.
executes() {
    use_style "FUNCTION {f} {$1} EXECUTE {f}"
}

# gives NAME STATUS LIST LINES BODY [WORD..]: a style with this body gives this list, and these lines of the log.
gives() {
    begin "$1"
    executes "$5"
    run_program "${@:6}" job
    wants_found "$2" "$3" "$4"
    end
}

# ---- databases ----

begin comment_in_a_database
printf '@comment{x}\n@misc{k, title = {T}}\n' >d.bib
run_program job
wants_job 0 $'a\n' "$first_log"
end

begin database_in_parentheses
printf 'Text. @string(s = "a ") @comment{@MISC (K , title = s # {  b },)}\n' >d.bib
use_style 'FUNCTION {f} {cite$ write$ "=" write$ title write$ newline$} ITERATE {f}'
run_program job
wants_found 0 $'k=a b\n' 'Ended: finished, warnings 0, errors 0, steps 8'
end

begin database_that_is_not_there
rm d.bib
run_program job
wants_job 2 $'a\n' "${found_log%Database*}Error--I couldn't open database file d.bib
Warning--I didn't find a database entry for \"k\"
Ended: finished, warnings 1, errors 1, steps 4
"
end

begin database_that_breaks_off
printf '@misc{k, title = {A}, note = "cu' >d.bib
use_style 'FUNCTION {f} {title write$ newline$} ITERATE {f}'
run_program job
wants_found 2 $'A\n' 'Error--Illegal end of database file--line 1 of file d.bib
Ended: finished, warnings 0, errors 1, steps 4'
end

begin key_without_an_entry
cite nope
use_style ''
run_program job
wants_found 0 '' "Warning--I didn't find a database entry for \"nope\"
Ended: finished, warnings 1, errors 0, steps 0"
end

begin all_entries
printf '@misc{%s}\n' a b c d >d.bib
cite 'b,*,c,e'
use_style 'FUNCTION {f} {cite$ write$ newline$} ITERATE {f}'
run_program job
wants_found 0 $'b\na\nc\nd\n' "Warning--I didn't find a database entry for \"e\"
Ended: finished, warnings 1, errors 0, steps 16"
end

begin several_databases
printf '@misc{k, title = {First}}\n@misc{j, title = {J}}\n' >e.bib
printf '\\citation{j,k}\n\\bibdata{d,none,e}\n\\bibstyle{s}\n' >job.aux
use_style 'FUNCTION {f} {cite$ write$ title write$ newline$} ITERATE {f}'
run_program job
wants_job 2 $'jJ\nkT\n' "${found_log}Error--I couldn't open database file none.bib
Database file #2: e.bib
Error--Repeated entry--line 1 of file e.bib
Ended: finished, warnings 0, errors 2, steps 12
"
end

# ---- styles ----

begin style_that_is_not_there
rm s.bst
run_program job
wants_job 2 '' "The top-level auxiliary file: job.aux
Error--I couldn't open style file s.bst
Ended: finished, warnings 0, errors 1, steps 0
"
end

gives unknown_function 2 $'a\n' 'Error--nosuch is an unknown function--line 1 of file s.bst
Ended: finished, warnings 0, errors 1, steps 4' 'nosuch "a" write$ newline$'

begin style_that_breaks_off
use_style 'FUNCTION {f} {"a"'
run_program job
wants_found 2 '' 'Error--Illegal end of style file--line 1 of file s.bst
Ended: finished, warnings 0, errors 1, steps 0'
end

begin sorted
printf '@misc{%s}\n' a b C >d.bib
cite b,a,C
use_style "FUNCTION {f} {cite\$ 'sort.key\$ :=} FUNCTION {g} {cite\$ write\$ newline\$} ITERATE {f} SORT ITERATE {g} REVERSE {g}"
run_program job
wants_found 0 $'C\na\nb\nb\na\nC\n' 'Ended: finished, warnings 0, errors 0, steps 36'
end

gives warned 0 '' 'Warning--w
Ended: finished, warnings 1, errors 0, steps 3' '"w" warning$'

gives leftover_literals 2 '' "Error--The literal stack isn't empty while executing EXECUTE
\"x\"
7
Ended: finished, warnings 0, errors 1, steps 3" '#7 "x"'

gives empty_stack 2 '' "Error--You can't pop an empty literal stack while executing +
Error--You can't pop an empty literal stack while executing +
Ended: finished, warnings 0, errors 2, steps 3" '+ pop$'

gives no_entry_here 2 '' "Error--You can't mess with entries here while executing cite\$
Ended: finished, warnings 0, errors 1, steps 2" 'cite$'

gives pending_text 0 $'a\n' 'Ended: finished, warnings 0, errors 0, steps 3' '"a" write$'

# ---- where a run is stopped ----

gives endless_loop 4 '' 'Ended: stopped, warnings 0, errors 0, steps 100' '{#1} {skip$} while$' --budget 100

# Of the pending line what no later step can change is written.
gives stopped_in_a_line 4 "aaa
  $(letters 80 b)" 'Ended: stopped, warnings 0, errors 0, steps 3' "\"aaa $(letters 80 b)\" write\$ newline\$" --budget 3

gives stopped_in_a_short_line 4 '' 'Ended: stopped, warnings 0, errors 0, steps 3' '"abc" write$ newline$' --budget 3

# ---- limits ----

begin literals_at_the_limit
executes "$(letters 1000 '#7 ')stack\$"
run_program job
wants_found 0 '' "$(letters 1000 '7\n')
Ended: finished, warnings 0, errors 0, steps 1002"
end

gives limit_literals 3 '' 'Ended: limit literals, warnings 0, errors 0, steps 1002' "$(letters 1001 '#7 ')"

begin limit_calls
use_style "FUNCTION {h} {duplicate\$ #1 swap\$ 'skip\$ if\$} FUNCTION {g} {'h h} EXECUTE {g}"
run_program job
wants_found 3 '' 'Ended: limit calls, warnings 0, errors 0, steps 24573'
end

begin limit_loops
use_style "FUNCTION {t} {duplicate\$ 'while\$ #1} FUNCTION {f} {'t duplicate\$ 'while\$ while\$} EXECUTE {f}"
run_program job
wants_found 3 '' 'Ended: limit loops, warnings 0, errors 0, steps 20485'
end

# A string of 15,625 letters, doubled six times, has 1,000,000 bytes.
# doubles END: the style doubles it, and then does this.
doubles() {
    use_style "FUNCTION {d} {duplicate\$ *} FUNCTION {f} {\"$(letters 15625 a)\" d d d d d d $1} EXECUTE {f}"
}

begin string_at_the_limit
doubles 'pop$'
run_program job
wants_found 0 '' 'Ended: finished, warnings 0, errors 0, steps 21'
end

begin limit_string
doubles '"b" * pop$'
run_program job
wants_found 3 '' 'Ended: limit string, warnings 0, errors 0, steps 22'
end

# database_with N: the entry's title has N letters.
database_with() {
    printf '@misc{k, title = {%s}}\n' "$(head -c "$1" /dev/zero | tr '\0' a)" >d.bib
}

begin field_at_the_limit
database_with 1000000
run_program job
wants_job 0 $'a\n' "$first_log"
end

begin field_past_the_limit
database_with 1000001
run_program job
wants_found 3 '' 'Ended: limit string, warnings 0, errors 0, steps 0'
end

begin uncited_field_past_the_limit
database_with 1000001
sed 's/{k,/{j,/' d.bib >e.bib
printf '@misc{k}\n' | cat - e.bib >d.bib
run_program job
wants_job 0 $'a\n' "$first_log"
end

# includes N: the job's file includes another, that one the next, and so on; N are open at once.
includes() {
    local number
    printf '\\@input{f1.aux}\n\\citation{k}\n\\bibdata{d}\n\\bibstyle{s}\n' >job.aux
    for ((number = 1; number < $1 - 1; number++)); do
        printf '\\@input{f%d.aux}\n' $((number + 1)) >"f$number.aux"
    done
    : >"f$number.aux"
}

# levels N: the log's lines of N included files.
levels() {
    local number
    for ((number = 1; number <= $1; number++)); do
        printf 'A level-%d auxiliary file: f%d.aux\n' "$number" "$number"
    done
}

begin twenty_open_files
includes 20
run_program job
wants_job 0 $'a\n' "The top-level auxiliary file: job.aux
$(levels 19)
${first_log#*$'\n'}"
end

begin limit_files
includes 21
run_program job
wants_job 3 '' "The top-level auxiliary file: job.aux
$(levels 19)
Ended: limit files, warnings 0, errors 0, steps 0
"
end

# A style that recurses deeper than any stack of the program could: no call of it is a call of the program's.
begin deepest_calls
{
    printf 'ENTRY {title}{}{} FUNCTION {misc}{} READ\nFUNCTION {f1} {}\n'
    for number in {2..4097}; do
        printf 'FUNCTION {f%d} {f%d}\n' "$number" $((number - 1))
    done
    printf 'EXECUTE {f4096} EXECUTE {f4097}\n'
} >s.bst
wants_deepest_calls() {
    wants_found 3 '' 'Ended: limit calls, warnings 0, errors 0, steps 8193'
}
run_program job
wants_deepest_calls
status=0
(
    ulimit -s 128
    exec timeout 60 "$program" job </dev/null >"$folder/stdout" 2>"$folder/stderr"
) || status=$?
wants_deepest_calls
end
