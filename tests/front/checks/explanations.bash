# What bibtex-search -explain prints after each message. tests/front/explanations.py compares the words with docs/RULES.md.

# wants_explained FILE FOLDER SPACES: what is printed of the job of write_explained with -terse, where style and database stand in FOLDER/ (or here, where it is empty), and
# as many SPACES before the mark as FOLDER/ has letters.
wants_explained() {
    wants_text "$1" "Error--White space in argument--line 1 of file job.aux
    job.aux:1: \\citation{k, j}
                           ^
    not taken from this line: \`j\`
    what to do: write no space in \`\\cite{..}\`, \`\\bibliography{..}\` or the name of a file
Error--I couldn't open database file e.bib
    job.aux:3: \\bibdata{d,e}
                          ^
    what to do: correct the name in \`\\bibliography\`, or put the database beside the \`.aux\` file. It is looked for there, along BIBINPUTS and in TeX's folders; check that you may read it
Error--nosuch is an unknown function--line 4 of file s.bst
    $2s.bst:4:   nosuch }
    ${3-}           ^
    in FUNCTION {misc}, which begins at $2s.bst:2
    what to do: define it above its use, or correct its spelling
Warning--string name \"zz\" is undefined--line 1 of file d.bib
    $2d.bib:1: @misc{k, title = {A} # zz}
    ${3-}                                ^
    in @misc{k}, which begins at $2d.bib:1
    what to do: define \`zz\` by \`@string\` above its use, or put braces or quotes round a text
Error--I was expecting an =--line 3 of file d.bib
    $2d.bib:3:  nöte 1}
    ${3-}               ^
    in @misc{j}, which begins at $2d.bib:2
    what to do: put an \`=\` after \`nöte\`
Error--Repeated entry--line 4 of file d.bib
    $2d.bib:4: @misc{K, title = {C}}
    ${3-}                ^
    in @misc{K}, which begins at $2d.bib:4
    the first is @misc{k}, which begins at $2d.bib:1
    what to do: give the entry \`K\` another key, such as \`Kb\`, and cite it by that: the document cites \`k\`, and case doesn't tell keys apart. Remove it only if it is the same work
Error--A bad cross reference--entry \"two\" refers to entry \"p\", which doesn't exist
    for @misc{two}, which begins at $2d.bib:5
    it may stand in e.bib, which wasn't found
    what to do: look for e.bib first
Warning--I didn't find a database entry for \"nosuch\"
    job.aux:2: \\citation{two,nosuch,bare}
                             ^
    (LaTeX writes this line for a \`\\cite\` in the document)
    it may stand in e.bib, which wasn't found
Error--\"A\" is not an integer while executing + for entry k
    in {..} of FUNCTION {misc}, $2s.bst:3; called from misc, s.bst:3; ITERATE {call.type\$}, s.bst:7
    on the stack: 1, \"A\"
    for @misc{k}, which begins at $2d.bib:1
    \`+\` takes NUMBER NUMBER, pushed in this order
    what to do: push the operands in the order in which the function takes them; a field that may be missing goes through \`empty\$\` or \`missing\$\` first
Warning--empty title in bare
    for @misc{bare}, which begins at $2d.bib:6
    what to do: add \`title\` to the entry
(1 more key has no entry: it may stand in e.bib, which wasn't found)
(1 more error is like \`Error--\"A\" is not an integer while executing + for entry k\` in line 3 of the style; for two)
Ended: finished, warnings 4, errors 8, steps 36
(There were 8 error messages)
    what to do: mend the style's text first, $2s.bst:4: errors of its execution may follow from that
"
}

# Where an entry may be that wasn't found, and which names may be meant by those that aren't known.
begin explained_missing_names
printf '%s\n' '\citation{two,smith210,a,,white}' '\bibdata{d}' '\bibstyle{s}' >job.aux
printf '%s\n' '@misc{p, title = {P}}' '@misc{a, title = {A}, crossref = {p}}' '@misc{smith2010, title = sprnger # sept}' '@string{springer = {S}}' \
    '@mics{white, tilte = {T}}, note = {N}}' '@misc{one, title = 2000,' '' '@misc{two, title = {Two}}' '@misc{three, title = {x' >d.bib
printf '%s\n' 'ENTRY {title}{}{}' 'MACRO {sep} {"September"}' 'FUNCTION {misc} {}' 'FUNCTION {default.type} {title empty$ {"empty title in " cite$ * warning$} {} if$}' 'READ' 'ITERATE {call.type$}' >s.bst
run_search -explain -terse job
wants_status 2
wants_words "$folder/stdout" '`two` stands at d.bib:8; it was skipped with @misc{one}, which begins at d.bib:6'
wants_words "$folder/stdout" 'what to do: mend that item: a `}` or a quote is missing above `two`'
wants_words "$folder/stdout" 'what to do: close @misc{one}, which begins at d.bib:6: a `}` is missing above this line'
wants_words "$folder/stdout" 'in the value of `title`, which begins at d.bib:9'
wants_words "$folder/stdout" 'is it `smith2010`, which begins at d.bib:3?'
wants_words "$folder/stdout" '`p` stands at d.bib:1, above an entry that names it as its parent (d.bib:2)'
wants_words "$folder/stdout" 'write a key in the empty `\cite{}`, or take it out'
wants_words "$folder/stdout" 'is it `@misc`?'
wants_words "$folder/stdout" 'it has `tilte`: is it `title`?'
wants_words "$folder/stdout" 'the entry ends at d.bib:5; `note` stands after its end'
sed -i 's/smith210/smith2010/' job.aux
run_search -explain -terse job
wants_words "$folder/stdout" 'is it `springer`?'
wants_words "$folder/stdout" 'is it `sep`?'
end

begin explained_entry_without_a_key
printf '%s\n' '@misc{author = {A}, title = {T}}' '@misc{k}' >d.bib
run_search -explain -terse job
wants_words "$folder/stdout" 'write the entry'"'s key first: "'`@misc{KEY, author = ..`'
end

# What is wrong at the place of an error, as far as the style's text shows it.
begin explained_kinds
use_style 'INTEGERS { n } STRINGS { s }
FUNCTION {text.of} { duplicate$ empty$ { "" } '"'skip\$"' if$ }
FUNCTION {f} { #1 '"'s"' := pop$ title #0 = pop$
n s := note text.of "x" *
pop$ pop$ }
ITERATE {f}'
sed -i 's/ENTRY { *title/ENTRY { note title/; s/ENTRY {title/ENTRY {note title/' s.bst
run_search -explain job
wants_status 2
wants_words "$folder/stdout" '`s` is a string (STRINGS, line 1), and `#1` is an integer; if `s` is to be a number, declare it in INTEGERS, and not in line 1; else write `int.to.str$` before `'"'s"'`'
wants_words "$folder/stdout" 'a string and an integer are never equal: `title` is a field, and `#0` is a number; ask by `title empty$`'
wants_words "$folder/stdout" "write a ' before the variable: \`'s\`"
end

# A `:=` that finds fewer than two literals: nothing is said of the kind of a value that isn't there.
begin explained_value_that_is_not_there
use_style 'STRINGS { s }
FUNCTION {set} { '"'s"' := }
ITERATE {set}'
run_search -explain job
wants_status 2
wants_words "$folder/stdout" "    what to do: no value stands below \`'s\` on the stack; push one before \`'s\`, or before the function is run"
! grep -q 'int.to.str' "$folder/stdout" || complaints+=("a kind is named in $(cat "$folder/stdout")")
sed -i 's/^STRINGS { s }/&\nSTRING { t }\nSTRINGS { u }\n/; s/STRINGS { s }/INTEGERS { s }/; s/{ .s := }/{ "x" '"'u"' := }/' s.bst
run_search -explain job
wants_status 2
wants_words "$folder/stdout" "    what to do: \`u\` isn't known here; declare \`u\` above this function, in a command that is read"
end

# A missing field for an integer variable: its value would be wrong, too.
begin explained_field_for_a_number
use_style 'INTEGERS { n }
FUNCTION {f} { note '"'n"' := }
ITERATE {f}'
sed -i 's/ENTRY *{ *title/ENTRY {note title/' s.bst
run_search -explain job
wants_status 2
wants_words "$folder/stdout" '    what to do: `n` is an integer (INTEGERS, line 1), and `note` is a field; if `n` is to be a string, declare it in STRINGS'
end

# What the test of a loop leaves: the operands of its `while$` are right, and aren't named.
begin explained_test_of_a_loop
use_style 'FUNCTION {f} { { title } { } while$
{ } { } while$ }
ITERATE {f}'
run_search -explain job
wants_status 2
wants_words "$folder/stdout" '    the test of this `while$` has to leave one integer, and nothing else'
wants_words "$folder/stdout" '    what to do: it leaves `title`, a field; let the test leave an integer'
wants_words "$folder/stdout" '    what to do: let the test leave an integer, as'
! grep -q '{TEST} {BODY}' "$folder/stdout" || complaints+=("the operands are named in $(cat "$folder/stdout")")
end

# A variable of each entry that EXECUTE assigns to: its declaration, and one that all entries share.
begin explained_variable_without_an_entry
use_style 'STRINGS { last.label }
FUNCTION {f} { "" '"'label"' := }
EXECUTE {f}'
sed -i 's/ENTRY {title}{}{}/ENTRY {title}{}{label}/' s.bst
run_search -explain job
wants_words "$folder/stdout" '`label` is a string of each entry (ENTRY, line 1); assign to a variable of STRINGS, which all entries share: is it `last.label`, line 1?'
end

# One EXECUTE without an entry: what follows from that is counted.
begin explained_without_an_entry
use_style 'FUNCTION {f} { title write$ title write$ cite$ write$ "x" }
EXECUTE {f}'
run_search -explain job
wants_status 2
wants_words "$folder/stdout" 'there is no current entry: take EXECUTE {f} in line 2 out, or run its function by ITERATE or REVERSE'
[ "$(grep -c '^Error--' "$folder/stdout")" -eq 1 ] || complaints+=("printed was $(cat "$folder/stdout")")
grep -q '^([0-9]* more errors follow from `Error--You can.t mess with entries here while executing title` in line 1 of the style)$' "$folder/stdout" || complaints+=("printed was $(cat "$folder/stdout")")
end

# An entry of a type that the style doesn't know is treated by `default.type` only where there is one.
begin explained_type_that_is_not_known
use_style 'ITERATE {call.type$}'
echo '@odd{k, title = {T}}' >d.bib
run_search -explain job
wants_words "$folder/stdout" '    what to do: the style has no function of that name, and no `default.type` above READ: `call.type$` does nothing for the entry'
sed -i 's/READ/FUNCTION {default.type} { } READ/' s.bst
run_search -explain job
wants_words "$folder/stdout" '    what to do: the style has no function of that name; it treats the entry by `default.type`'
end

# A misspelt function is named once, with the name that is near.
begin explained_misspelt
use_style 'FUNCTION {field.or.nul} { pop$ }
FUNCTION {f} { title field.or.null
title field.or.null title field.or.null }
ITERATE {f}'
run_search -explain job
wants_status 2
wants_words "$folder/stdout" 'is it field.or.nul?'
wants_words "$folder/stdout" 'field.or.null stands at 3 places: lines 2, 3'
[ "$(grep -c 'is an unknown function--' "$folder/stdout")" -eq 1 ] || complaints+=('it is said more than once')
wants_words "$folder/stdout" '(2 more errors follow from that)'
wants_words "$folder/stdout" "mend the style's text first, s.bst:2"
end

begin explained
write_explained
run_search -explain -terse job
wants_status 2
wants_explained "$folder/stdout" ''
end

begin explained_along_the_search_path
write_explained
mkdir there
mv d.bib s.bst there
BIBINPUTS=there BSTINPUTS=there run_plainly -explain -terse job
wants_explained "$folder/stdout" there/ '      '
end

# The log in the file has no explanations; a job that has run can be explained later, and nothing is written then.
begin explained_later
write_explained
run_search job
cp job.blg wanted
cp job.bbl wanted.bbl
run_search -explain-only -terse job
wants_status 2
wants_explained "$folder/stdout" ''
cmp -s wanted job.blg && cmp -s wanted.bbl job.bbl || complaints+=('an output was written')
rm job.bbl job.blg
run_search -explain-only -terse job
wants_explained "$folder/stdout" ''
[ ! -e job.bbl ] && [ ! -e job.blg ] || complaints+=('an output was made')
run_search -explain job
cmp -s wanted job.blg || complaints+=('the log in the file is another')
end

begin explained_by_another_name
write_explained
ln -s "$search" bibtex-explain
status=0
LD_LIBRARY_PATH=$libraries ./bibtex-explain -terse job </dev/null >"$folder/stdout" 2>"$folder/stderr" || status=$?
wants_explained "$folder/stdout" ''
[ ! -e job.bbl ] || complaints+=('a list was made')
end

begin explained_end
use_style 'EXECUTE {skip$}'
run_search -explain -budget=0 job
wants_status 4
wants_words "$folder/stdout" 'Ended: stopped, warnings 0, errors 0, steps 0'
wants_words "$folder/stdout" '    what to do: the style took as many steps as it may'
end

begin nothing_to_explain
run_search -explain job
wants_status 0
wants_text job.bbl $'a\n'
! grep -q 'what to do' "$folder/stdout" || complaints+=('something is explained')
end

# Nothing is explained where nobody reads a terminal, and where that isn't wanted.
for words in 'job' '-no-explain job' '-explain -no-explain job'; do
    begin "not_explained_$((passed + failed))"
    cite nosuch
    run_search $words
    wants_status 0
    ! grep -q 'what to do' "$folder/stdout" || complaints+=('it is explained')
    cmp -s <(log_of job.blg) <(log_of "$folder/stdout") || complaints+=('what was printed is not the log')
    end
done

begin explained_on_a_terminal
cite nosuch
TERM=xterm on_terminal 80 job >found
wants_words found '    what to do: the key is cited'
end

begin not_explained_on_a_terminal
cite nosuch
TERM=xterm on_terminal 80 -no-explain job >found
wants_words found "I didn't find a database entry"
! grep -q 'what to do' found || complaints+=('it is explained')
end

# A missing brace is named once, where the function that lacks it begins.
begin explained_missing_brace
write_unclosed
run_search -explain -terse job
wants_words "$folder/stdout" 'what to do: a `}` is missing in FUNCTION {misc}, which begins at s.bst:'
[ "$(wc -l <"$folder/stdout")" -le 12 ] || complaints+=("printed was $(cat "$folder/stdout")")
grep -q 'more errors follow from that' "$folder/stdout" || complaints+=('nothing says what follows from it')
end

# The operands of the function that is named, and the quote before the variable.
begin explained_operands
write_operands
run_search -explain -terse job
wants_words "$folder/stdout" "is there a \`'\` before the variable?"
[ "$(grep -c "what to do: write a ' before the variable: .'left" "$folder/stdout")" -eq 1 ] || complaints+=('advice is given more than once')
end

# A loop that makes a string too long: the loop is named first.
begin explained_loop
write_limit
run_search -explain -terse job
wants_status 3
grep 'what to do' "$folder/stdout" | grep -q loop || complaints+=("printed was $(cat "$folder/stdout")")
end

# A line that a style forges in the log shows nothing of a file that isn't the job's, and bytes that steer a terminal aren't shown.
begin explained_and_other_files
echo secret >other.bib
use_style '"x" #10 int.to.chr$ * "Database file #2: other.bib" * #10 int.to.chr$ * "Error--I was expecting an =--line 1 of file other.bib" * warning$'
sed -i 's/READ .*/FUNCTION {f} {&} READ EXECUTE {f}/; s/READ "x"/"x"/' s.bst
printf '@misc{j \e[2J 1}\n' >>d.bib
run_search -explain job
wants_words "$folder/stdout" 'I was expecting an ='
! grep -q secret "$folder/stdout" || complaints+=('a line of another file is shown')
wants_words "$folder/stdout" 'd.bib:2: @misc{j'
! grep -q $'\e' "$folder/stdout" || complaints+=('a byte steers the terminal')
end

# A place far inside a line is shown with what stands round it.
begin explained_long_line
{
    printf '@misc{j, note = {'
    letters 3000 x
    printf '} 1'
    letters 3000 y
    echo '}'
} >>d.bib
run_search -explain job
grep -q '^    d.bib:2: ..*} 1y' "$folder/stdout" || complaints+=("the line is $(grep d.bib: "$folder/stdout" | cut -c 1-300)")
[ "$(wc -L <"$folder/stdout")" -lt 200 ] || complaints+=('the line was not cut')
end

# Names outside ASCII are shown as they are.
begin explained_names_of_letters
mv d.bib é.bib
printf '\\citation{ö}\n\\bibdata{é}\n\\bibstyle{s}\n' >job.aux
printf '@misc{ö, title 1}\n' >é.bib
run_search -explain job
wants_words "$folder/stdout" 'é.bib:1: @misc{ö, title 1}'
wants_words "$folder/stdout" 'in @misc{ö}, which begins at é.bib:1'
end

# The first thousand messages are explained, in a time that grows with the job.
begin explained_very_many
{
    printf '\\citation{%s}\n' $(seq -f 'nosuch%g' 20000)
    printf '\\bibdata{d}\n\\bibstyle{s}\n'
} >job.aux
seconds=20
run_search -explain job
seconds=60
wants_status 0
found=$(grep -c '^    job.aux:' "$folder/stdout")
[ "$found" -eq 1000 ] || complaints+=("$found messages are explained")
wants_words "$folder/stdout" '19000 more messages'
[ "$(messages job.blg | wc -l)" -eq 20000 ] || complaints+=("the log has $(messages job.blg | wc -l) messages")
end

# grows NAME MAKER: a job of the size 4n takes at most some six times as long as one of n, with explanations.
grows() {
    begin "explained_in_time_$1"
    local small large
    $2 1
    small=$(cpu_of -explain job)
    $2 4
    large=$(cpu_of -explain job)
    echo "        $small and $large ms"
    [ "$large" -le $((8 * small + 400)) ] || complaints+=("$small ms, and $large ms where the job is four times as long")
    end
}

# cpu_of WORD..: the processor's milliseconds of a run.
cpu_of() {
    LD_LIBRARY_PATH=$libraries python3 -c '
import resource, subprocess, sys
subprocess.run(["timeout", "-k", "1", "60", *sys.argv[1:]], stdin=subprocess.DEVNULL, stdout=subprocess.DEVNULL, stderr=subprocess.DEVNULL)
used = resource.getrusage(resource.RUSAGE_CHILDREN)
print(round(1000 * (used.ru_utime + used.ru_stime)))' "$search" "$@"
}

# Each of these makes a job of a size: many messages on one line of each kind of file, one long line, messages that are like others, one entry with many fields.
commas_in_aux() { printf '\\citation{k}\n\\bibstyle{s}\n\\bibdata{d%s}\n' "$(head -c $((20000 * $1)) /dev/zero | tr '\0' ,)" >job.aux; }
repeats_in_bib() {
    {
        printf '@misc{k'
        printf ', title = {x}%.0s' $(seq $((5000 * $1)))
        echo '}'
    } >d.bib
}
names_in_style() { printf 'ENTRY {}{}{} FUNCTION {f} {%s}\n' "$(printf ' u%s' $(seq $((5000 * $1))))" >s.bst; }
lines_of_style() { use_style "FUNCTION {f} {#$((4000 * $1)) {duplicate\$ #0 >} {#1 - #1 \"x\" + pop\$} while\$ pop\$} EXECUTE {f}"; }
crosses_in_a_line() {
    use_style "FUNCTION {f} {\"A bad cross reference--entry \" quote\$ * $(printf '"a" quote$ * " refers to entry " * quote$ * * %.0s' $(seq $((2000 * $1)))) warning\$} EXECUTE {f}"
}
items_of_database() {
    cite '*'
    printf '@misc{k%s, title 1}\n' $(seq $((5000 * $1))) >d.bib
}
lines_far_apart() {
    cite '*'
    {
        printf '@misc{a, note = zz}\n'
        printf '%% a line of nothing\n%.0s' $(seq $((20000 * $1)))
        printf '@misc{b, note = zz}\n'
    } >d.bib
    use_style "FUNCTION {f} {#300 {duplicate\$ #0 >} {#1 - \"x--line 1 of file d.bib\" warning\$ \"x--line $((20000 * $1)) of file d.bib\" warning\$} while\$ pop\$} EXECUTE {f}"
}

for maker in commas_in_aux repeats_in_bib names_in_style lines_of_style crosses_in_a_line items_of_database lines_far_apart; do
    grows $maker $maker
done

# The words are those of RULES, and each mistake of a database has its mark where the reference means it. The front end's reader of logs is built for it.
library=$(realpath -m "${BTX_LIBRARY:-$sources/crates/btx_c/out}")
if there_is cargo 'the words of RULES' && [ -f "$library/libbtx_c.a" ]; then
    begin advice_is_that_of_rules
    BTX_LIBRARY=$library CARGO_TARGET_DIR=$sources/front/target "$sources/front/cargo" build --quiet --release --example read_log >built 2>&1 || complaints+=("$(cat built)")
    reader=$sources/front/target/release/examples/read_log
    python3 "$here/explanations.py" rules "$reader" >found || complaints+=("$(cat found)")
    python3 "$here/explanations.py" places "$reader" 300 >found || complaints+=("$(tail -n 20 found)")
    end

    if has bibtex; then
        begin marks_are_where_the_original_has_them
        python3 "$here/explanations.py" original "$program" "$reader" 100 >found || complaints+=("$(tail -n 20 found)")
        end
    fi
else
    echo 'left out: the words of RULES (without cargo and the library)'
fi

# A message about a name shows the line of the database, and not the way through the style.
begin names_are_shown_in_their_database
cat >s.bst <<'END'
ENTRY {author} {} {}
FUNCTION {names} { author #1 "{ll}" format.name$ write$ newline$ }
FUNCTION {misc} { names }
READ
ITERATE {call.type$}
END
cite 'k,l,m'
printf '@misc{k,\n  author = {Smith, John, Jr., PhD}}\n@misc{l,\n  author = "Doe,"}\n@misc{m, author = {A, B,\n  C, D}}\n' >d.bib
run_search -explain job
wants_status 2
for line in '    d.bib:2:   author = {Smith, John, Jr., PhD}}' '    d.bib:4:   author = "Doe,"}' '    d.bib:5: @misc{m, author = {A, B,' '    in FUNCTION {names}, s.bst:2' \
    '    for @misc{k}, which begins at d.bib:1'; do
    wants_line "$folder/stdout" "$line"
done
! grep -qE 'called from|on the stack' "$folder/stdout" || complaints+=("printed is $(cat "$folder/stdout")")
end

# Of a string that isn't defined the first message is shown, and the others are counted: what stands among them isn't hidden.
begin undefined_strings_are_counted_by_name
cite "$(seq -s , -f 'k%g' 1200),gone"
{ seq -f '@misc{k%g, title = jn}' 1200; echo '@misc{other, title = other}'; } >d.bib
run_search -explain job
[ "$(grep -c 'string name "jn" is undefined' "$folder/stdout")" -eq 1 ] || complaints+=('the message is repeated')
wants_line "$folder/stdout" 'The string `jn` isn'"'"'t defined 1199 times more, the last in line 1200 of d.bib.'
wants_line "$folder/stdout" 'Warning--I didn'"'"'t find a database entry for "gone"'
! grep -q 'more messages\?' "$folder/stdout" || complaints+=("printed is $(tail -n 5 "$folder/stdout")")
cite 'k1,k2'
run_search -explain job
wants_line "$folder/stdout" 'The string `jn` isn'"'"'t defined once more, the last in line 2 of d.bib.'
end

# A style's equal warnings are counted by their text, and hide no other message: each error is shown, and a warning of another text.
begin equal_warnings_are_counted
cat >s.bst <<'END'
ENTRY {author journal} {} {}
FUNCTION {misc} {journal empty$ {"empty journal in " cite$ * warning$} 'skip$ if$ author empty$ 'skip$ {author #1 "{ll}" format.name$ write$ newline$} if$}
READ
ITERATE {call.type$}
END
cite "$(seq -s , -f 'e%g' 1100),zz"
{ seq -f '@misc{e%g}' 1100; echo '@misc{zz, journal = {J}, author = {A, B, C, D}}'; } >d.bib
run_search -explain -terse job
[ "$(grep -c '^Warning--empty journal in e' "$folder/stdout")" -eq 8 ] || complaints+=('not 8 of the warnings are shown')
wants_line "$folder/stdout" '(1092 more warnings are like `Warning--empty journal in e1`; for e9, e10, e11, e12, e13, e14, e15, e16, ..)'
wants_line "$folder/stdout" 'Error--Too many commas in name 1 of "A, B, C, D" while executing format.name$ for entry zz'
! grep -q 'more messages\?' "$folder/stdout" || complaints+=("printed is $(tail -n 5 "$folder/stdout")")
end

# Of a field that an entry lacks, and of a name, the first error is shown: the entry first and the style's path last, once. The others are counted.
begin style_last_and_once
mkdir styles
cat >styles/s.bst <<'END'
ENTRY {author title} {} {}
STRINGS {s}
FUNCTION {f} {'s := s pop$}
FUNCTION {misc} {author num.names$ pop$
author f
author f
title #1 "{ll}" format.name$ pop$
title #1 "{ll}" format.name$ pop$}
READ
ITERATE {call.type$}
END
rm s.bst
cite 'k,l'
printf '@misc{k, title = {T}}\n@misc{l, author = {B}, title = {A, B, C, D}}\n' >d.bib
BSTINPUTS=styles: run_search -explain -terse job
for line in '    the missing field is `author`, pushed at s.bst:4' '    (2 more errors follow from that)' '    in FUNCTION {misc}, styles/s.bst:7'; do
    wants_line "$folder/stdout" "$line"
done
[ "$(grep -c '^Error--missing field' "$folder/stdout")" -eq 1 ] || complaints+=('the missing field is said again')
[ "$(grep -c '^Error--Too many commas' "$folder/stdout")" -eq 1 ] || complaints+=('the name is said again')
[ "$(grep -n '^    for @misc{k}' "$folder/stdout" | cut -d: -f1)" -lt "$(grep -n 'styles/s.bst' "$folder/stdout" | head -n 1 | cut -d: -f1)" ] || complaints+=('the style stands first')
! grep -q 'styles/s.bst.*styles/s.bst' "$folder/stdout" || complaints+=('the path of the style stands twice in a line')
end
