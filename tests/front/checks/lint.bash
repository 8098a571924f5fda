# bibtex-lint, another name of bibtex-search: what is said of a style before any document uses it.

ln -sf "$search" "$room/bibtex-lint"

# run_lint WORD..: runs bibtex-lint as run_search runs bibtex-search.
run_lint() {
    status=0
    (ulimit -v 4000000; LD_LIBRARY_PATH=$libraries exec timeout -k 5 "$seconds" "$room/bibtex-lint" "$@") </dev/null >"$folder/stdout" 2>"$folder/stderr" || status=$?
}

# wants_line_of_output LINE: standard output has this line.
wants_line_of_output() {
    grep -qxF -- "$1" "$folder/stdout" || complaints+=("there is no line '$1' in $(printf '%q' "$(cat "$folder/stdout")")")
}

# The library that Python's package loads.
library_for_python=
for candidate in "$programs/libbtx.so.1" "$sources/library/out/libbtx.so.1"; do
    [ -n "$library_for_python" ] || [ ! -e "$candidate" ] || library_for_python=$candidate
done

# write_clean: a style without a fault.
write_clean() {
    cat >clean.bst <<'END'
ENTRY { author title } {} {}

FUNCTION {output.title}
{ title empty$ 'skip$ { title write$ newline$ } if$ }

FUNCTION {article}
{ output.title }

FUNCTION {default.type} { article }

READ

ITERATE {call.type$}
END
}

begin lint_help
for word in -h --help -help; do
    run_lint "$word"
    wants_status 0
    wants_error ''
    wants_words "$folder/stdout" 'Usage: '
    for option in --line --json --entry --job --trace --function --steps -h --help --version; do
        wants_words "$folder/stdout" "$option"
    done
done
end

begin lint_of_a_clean_style
write_clean
run_lint clean.bst
wants_status 0
wants_error ''
wants_output 'clean.bst: clean: no run with a budget of at most 1,500,000,000 steps logs a fault of the stack or of kinds (at most 4 bodies are open; 3 literals were met)
    for entries of the types article, and of all that it doesn'"'"'t know
    not covered: entries whose type has the name of one of these functions, which stand above READ and aren'"'"'t taken as types: 2 with a dot in their names, such as output.title
clean.bst: ends: at most 0 steps, and 13 for each entry, where a string variable keeps at most 20,000 bytes
'
run_lint --line clean
wants_status 0
wants_output 'clean.bst: clean, literals 3, bodies 4, messages 0, hints 0
'
end

# Whether each run ends is said beside the verdict, whatever that is.
begin lint_of_ends
write_clean
sed -i -e 's/^FUNCTION {default/STRINGS { rest }\nFUNCTION {not} { { #0 } { #1 } if$ }\n&/' \
    -e 's/{ article }/{ cite$ '"'"'rest := { rest empty$ not } { rest #2 global.max$ substring$ '"'"'rest := } while$ }/' clean.bst
run_lint clean.bst
wants_status 0
wants_line_of_output 'clean.bst: ends: at most 0 steps, and 24 + 16*N for each entry, where a string variable keeps at most N bytes (0 and 320,024 for N = 20,000)'
sed -i 's/rest #2/rest #1/' clean.bst
run_lint clean.bst
wants_status 0
wants_line_of_output 'clean.bst: not known to end: `while$` in line 11, in default.type: its body isn'"'"'t known to count towards its end, to make a text shorter or to walk along it'
wants_line_of_output "    it is clean all the same (status 0): a run that doesn't end is stopped at its budget, and logs no such fault before that"
sed -i -e 's/rest #1/rest #2/' -e 's/title empty.*/title write$ }/' clean.bst
run_lint clean.bst
wants_status 2
wants_line_of_output 'clean.bst: ends: at most 0 steps, and 24 + 16*N for each entry, where a string variable keeps at most N bytes (0 and 320,024 for N = 20,000)'
wants_line_of_output '    for entries of the types article, and of all that it doesn'"'"'t know'
sed -i 's/title write/nosuch write/' clean.bst
run_lint clean.bst
! grep -q 'ends: \|known to end' "$folder/stdout" || complaints+=("a style with mistakes is said to end or not: $(cat "$folder/stdout")")
end

# Where no bound is known for entries of some types alone, these are named, with the first loop of theirs without one.
begin lint_of_ends_for_some_types
cat >types.bst <<'END'
ENTRY { title } {} {}
FUNCTION {book} { { #1 } { "a" write$ } while$ }
FUNCTION {article} { cite$ write$ }
READ
ITERATE {call.type$}
END
run_lint types.bst
wants_status 0
wants_line_of_output 'types.bst: ends: at most 0 steps, and 4 for each entry, where a string variable keeps at most 20,000 bytes'
wants_line_of_output '    not known to end for entries of the type book: `while$` in line 2, in book: its body isn'"'"'t known to count towards its end, to make a text shorter or to walk along it'
run_lint --json types.bst
grep -qF '"ends": {"once": 0, "each": 4, "kept": 20000, "types": ["article"]}' "$folder/stdout" || complaints+=("the types of the bound aren't named: $(cat "$folder/stdout")")
end

# What the test of a loop leaves counts as well: five literals, of which the body takes four.
begin lint_of_literals_that_a_test_leaves
cat >test.bst <<'END'
ENTRY { title } {} {}
INTEGERS { n }
FUNCTION {a} { #3 'n := { n #1 - 'n := "x" "y" "z" "u" n } { pop$ pop$ pop$ pop$ } while$ pop$ pop$ pop$ pop$ }
READ
EXECUTE {a}
END
run_lint --line test.bst
wants_status 0
grep -q '^test.bst: clean, literals 5,' "$folder/stdout" || complaints+=("printed is $(cat "$folder/stdout")")
end

# Each function above READ is a type of entry to a run: those that aren't taken as types are named, where the style is clean and where it isn't.
begin lint_of_constants
write_clean
sed -i 's/{ title write\$ newline\$ }/{ title "x" change.case$ write$ #200 int.to.chr$ write$ newline$ }/' clean.bst
run_lint clean.bst
wants_status 2
wants_line_of_output 'clean.bst:4: in output.title: each run of this logs: "x" is an illegal case-conversion string'
wants_line_of_output "clean.bst:4: in output.title: each run of this logs: 200 isn't an ASCII code"
wants_line_of_output "clean.bst: warnings: 2 constants that the functions after them can't take, but no fault of the stack or of kinds"
run_lint --line clean
wants_output 'clean.bst: warnings, messages 0, constants 2, hints 0
'
run_lint --json clean
wants_words "$folder/stdout" '"constants": [{"text": "\"x\" is an illegal case-conversion string", "do": "the conversion is `\"t\"`, `\"l\"` or `\"u\"`", "executed": "change.case$", "function": "output.title", "line": 4}'
end

begin lint_of_the_run_of_an_entry
write_clean
printf '\\citation{a}\n\\bibdata{d}\n\\bibstyle{clean}\n' >paper.aux
echo '@article{a, title = {T}} @article{b, title = {U}}' >d.bib
run_lint --job paper --trace b --function output.title
wants_status 0
wants_error ''
wants_output 'ITERATE {call.type$} (line 13)
  article
    output.title (line 7)
      title (line 4)
      empty$ (line 4), over "U"
      if$ (line 4), over 0  '"'"'skip$  '"'"'{}
      {} (line 4)
      title (line 4)
      write$ (line 4), over "U"
      newline$ (line 4)
'
run_lint --job paper --trace nosuch
wants_status 1
run_lint --trace b clean
wants_status 1
run_lint --job nosuch --trace b
wants_status 1
end

begin lint_of_types_that_are_not_covered
write_clean
sed -i 's/^FUNCTION {article}/FUNCTION {mid} { output.title }\n\n&/; s/^{ output.title }/{ mid }/' clean.bst
uncovered="    not covered: entries whose type has the name of one of these functions, which stand above READ and aren't taken as types: mid, and 2 with a dot in their names, such as output.title"
for wanted in 0 2; do
    run_lint clean.bst
    wants_status $wanted
    wants_line_of_output "$uncovered"
    run_lint --json clean.bst
    grep -qF '"types": ["article"], "uncovered": ["output.title", "mid", "default.type"]' "$folder/stdout" || complaints+=("printed is $(cat "$folder/stdout")")
    sed -i 's/title empty.*/title write$ }/' clean.bst
done
sed -i 's/title write/nosuch write/' clean.bst
run_lint clean.bst
! grep -q 'not covered' "$folder/stdout" || complaints+=("a style with mistakes has a verdict on types: $(cat "$folder/stdout")")
end

# Warnings that come up after another one in each visit aren't shown, but counted.
begin lint_of_warnings_behind_others
write_clean
sed -i 's/title empty.*/#1 write$ write$ newline$ }/' clean.bst
run_lint clean.bst
wants_status 2
wants_line_of_output 'clean.bst: warnings: 1 place; 1 more after it'
run_lint --json clean.bst
grep -qF '], "behind": 1, "hints"' "$folder/stdout" || complaints+=("printed is $(cat "$folder/stdout")")
end

# After a fault the stack is as the language leaves it: without an entry `cite$` pushes nothing, and `swap$` of one literal puts it back.
begin lint_of_what_stands_behind_a_fault
for row in 'cite$|1 place' 'cite$ pop$|1 place; 1 more after it' '"a" swap$ pop$|1 place'; do
    printf 'ENTRY {title} {} {}\nREAD\nFUNCTION {f} {%s}\nEXECUTE {f}\n' "${row%|*}" >fault.bst
    run_lint fault.bst
    wants_status 2
    wants_line_of_output "fault.bst: warnings: ${row#*|}"
done
end

# What the text shows of an `if$` whose branches the check meets one at a time, and what may be meant otherwise though no run logs a fault.
begin lint_of_the_text
write_clean
sed -i "s/^FUNCTION {output.title}/FUNCTION {and}\\n{ 'skip\$ { #0 } if\$ }\\n\\n&/; s/title empty/title empty\$ #0 and pop\$ &/" clean.bst
run_lint clean.bst
wants_status 2
wants_line_of_output 'clean.bst:4: in and: the branches of this `if$` leave different numbers of literals: the first leaves 0, the second leaves 1'
wants_line_of_output '    the first: leaves the stack as it was'
wants_line_of_output '    the second: leaves `#0` (line 4)'
wants_line_of_output '    so: after the second the stack has 1 literal more than after the first'
grep -q '^    what to do: let both leave the same number: let the second take 1 more off, .* or the first push 1 more' "$folder/stdout" || complaints+=("printed is $(cat "$folder/stdout")")
write_clean
sed -i 's/title write\$/"t" title change.case$ write$/' clean.bst
run_lint clean.bst
wants_line_of_output 'clean.bst:4: hint: in output.title: `change.case$` takes TEXT CASE: `"t"` and `title` are exchanged: write `title "t" change.case$`'
end

begin lint_of_a_field_that_may_be_missing
write_clean
sed -i "s/{ title empty.*/{ author empty\$ 'skip\$\n   { title write\$ newline\$ }\n  if\$ }/" clean.bst
run_lint clean.bst
wants_status 2
wants_line_of_output 'clean.bst:5: in output.title: `write$` takes TEXT, and the field `title` may be missing here'
grep -q '^    called from: .*article (line 9) > output.title (line 5)$' "$folder/stdout" || complaints+=("printed is $(cat "$folder/stdout")")
wants_line_of_output '    what to do: choose by `title empty$` before it, or `title missing$`'
grep -q '^clean.bst: warnings: 1 place' "$folder/stdout" || complaints+=("printed is $(cat "$folder/stdout")")
run_lint --line clean.bst
wants_status 2
grep -qE '^clean.bst: warnings, first 5 write\$ (kind )?title, places 1, causes 1, messages 0, hints 0$' "$folder/stdout" || complaints+=("the line is $(cat "$folder/stdout")")
end

begin lint_of_operands_and_entries
write_clean
sed -i 's/title write\$/title #1 + write$/' clean.bst
run_lint clean.bst
grep -q '^clean.bst:4: in output.title: `+` takes NUMBER NUMBER' "$folder/stdout" || complaints+=("printed is $(cat "$folder/stdout")")
write_clean
echo 'EXECUTE {article}' >>clean.bst
run_lint clean.bst
wants_status 2
grep -q 'needs a current entry, and ' "$folder/stdout" || complaints+=("printed is $(cat "$folder/stdout")")
wants_line_of_output '    what to do: there is no current entry: take EXECUTE {article} in line 14 out, or run its function by ITERATE or REVERSE'
wants_line_of_output '    called from: EXECUTE {article} (line 14) > article (line 7) > output.title (line 4)'
end

# What the notes and the text say together: the line with a mark, what a variable is declared as, which function let a field through.
begin lint_of_kinds
# with_body BODY: a clean style, but for the body of a function that its entries run.
with_body() {
    write_clean
    sed -i 's/^FUNCTION {article}/INTEGERS { n } STRINGS { s }\n\nFUNCTION {assigns}\n{ '"$1"' }\n\n&/; s/^{ output.title }/{ assigns output.title }/' clean.bst
    run_lint clean.bst
    wants_status 2
}
with_body "n 's :="
wants_line_of_output 'clean.bst:9: in assigns: `:=` takes VALUE '"'VARIABLE: \`s\` is a string (STRINGS, line 6), and \`n\` is an integer"
wants_line_of_output '    what to do: if `s` is to be a number, declare it in INTEGERS, and not in line 6; else write `int.to.str$` before `'"'s\`: it makes a string of a number"
with_body "\"\" 's := n 's :="
wants_line_of_output '    what to do: write `int.to.str$` before `'"'s\`: it makes a string of a number"
with_body "n 's :="
grep -A1 -xF "    clean.bst:9: { n 's := }" "$folder/stdout" | grep -qx '                        ^' || complaints+=('the mark is missing')
with_body 's s :='
wants_line_of_output "    what to do: write a ' before the variable: \`'s\`"
with_body 'title #0 = pop$'
wants_line_of_output 'clean.bst:9: in assigns: `=` compares two strings or two numbers: a string and an integer are never equal: `title` is a field, and `#0` is a number'
end

begin lint_of_a_function_that_lets_a_field_through
write_clean
sed -i 's/^FUNCTION {article}/FUNCTION {text.of}\n{ duplicate$ empty$ { "" } '"'skip\$"' if$ }\n\nFUNCTION {sorts} { "x" title text.of * write$ }\n\n&/' clean.bst
sed -i 's/^{ output.title }/{ sorts }/' clean.bst
run_lint clean.bst
wants_status 2
wants_line_of_output '    what to do: `text.of` (line 6) is run on `title` just before: let it leave one string, and nothing else, where the field is missing'
wants_line_of_output 'clean.bst:7: in text.of: the branches of this `if$` leave different numbers of literals: the first leaves 1, the second leaves 0'
wants_line_of_output '    may follow from: the unequal `if$` in line 7'
head -n 1 "$folder/stdout" | grep -q 'the branches of this' || complaints+=("the cause isn't first in $(cat "$folder/stdout")")
end

# An unequal `if$` is named with a warning only where it can have been executed before it, and where the text doesn't show what pushed the operand.
begin lint_says_from_what_a_warning_may_follow
write_clean
{
    printf 'FUNCTION {odd}\n{ duplicate$ empty$ { pop$ } '"'skip\$"' if$ }\n\nFUNCTION {shows}\n{ write$ newline$ }\n\n'
    printf 'FUNCTION {book}\n{ title shows\n  title write$\n  title odd\n  write$\n  title write$ }\n'
} >odd
sed -i '/^FUNCTION {article}/{
r odd
N
}' clean.bst
sed -i '/^FUNCTION {article}/,/^{ output.title }/d' clean.bst
sed -i 's/article/book/' clean.bst
run_lint clean.bst
wants_status 2
[ "$(grep -c 'may follow from:' "$folder/stdout")" -eq 1 ] || complaints+=("printed is $(cat "$folder/stdout")")
grep -A 8 'in book: `write\$` takes TEXT, and there may be no literal' "$folder/stdout" >below
grep -q 'may follow from: the unequal `if\$` in line' below || complaints+=("printed is $(cat "$folder/stdout")")
grep -q 'do: mend that `if\$` first; if the warning stays, push what it takes' below || complaints+=("printed is $(cat "$folder/stdout")")
sed -i 's/^  title odd/  title/' clean.bst
run_lint clean.bst
wants_status 2
! grep -q 'different numbers' "$folder/stdout" || complaints+=("an if\$ is blamed: $(cat "$folder/stdout")")
end

begin lint_of_a_misspelt_function
write_clean
sed -i 's/^FUNCTION {article}/FUNCTION {output.tile} { skip$ }\n\nFUNCTION {article}/; s/^{ output.title }/{ output.titel output.titel }/' clean.bst
run_lint clean.bst
wants_status 2
grep -qE '^    is it output.ti(t)?le\?$' "$folder/stdout" || complaints+=("printed is $(cat "$folder/stdout")")
[ "$(grep -c 'is an unknown function--' "$folder/stdout")" -eq 1 ] || complaints+=('it is said more than once')
end

# lints_with TOKENS [ABOVE]: lints the clean style with these tokens at the front of its function for articles, and with this text above that.
lints_with() {
    write_clean
    sed -i 's/^FUNCTION {article}/'"${2-}"'&/; s/^{ output.title }/{ '"$1"' output.title }/' clean.bst
    run_lint clean.bst
    wants_status 2
}

# A field that stands for a number is wrong whether it is missing or not: no condition is named, and nothing that asks for it alone.
begin lint_of_a_number_without_its_sign
printf '%s\n' 'INTEGERS {i}' 'FUNCTION {f.g} {3 '"'"'i := i int.to.str$ write$}' 'EXECUTE {f.g}' >number.bst
run_lint number.bst
wants_words "$folder/stdout" 'write `#3`: an integer begins with `#`'
end

begin lint_of_a_field_for_a_number
for row in "author { newline\$ } 'skip\$ if\$|a field is never a number: ask by \`author empty\$\`, which leaves 1 where it is missing or blank, and else 0" \
    'author #1 + pop$|a field is never a number: push NUMBER NUMBER in this order' \
    "author 'n :=|if \`n\` is to be a string, declare it in STRINGS, and not in line 6; else assign it to a variable that is declared as a string: no function makes a number of digits"; do
    lints_with "${row%%|*}" 'INTEGERS { n }\n\n'
    wants_line_of_output "    what to do: ${row#*|}"
    ! grep -q '^    when: ' "$folder/stdout" || complaints+=("a condition is named in $(cat "$folder/stdout")")
    run_lint --json clean.bst
    ! grep -q '"missing"' "$folder/stdout" || complaints+=("printed is $(cat "$folder/stdout")")
done
end

# The operands of this `while$` are right: it is its test that leaves no integer.
begin lint_of_the_test_of_a_loop
for row in "title|it leaves \`title\`, a field" "cite\$|it leaves \`cite\$\`, a string" "'skip\$|it leaves the name \`'skip\$\`" \
    '|it may leave nothing here' '#1 #1 + { "" } { #0 } if$|it may leave something else here'; do
    lints_with "{ ${row%%|*} } { newline\$ } while\$"
    wants_line_of_output "clean.bst:7: in article: the test of this \`while\$\` has to leave one integer, and nothing else: ${row#*|}"
    ! grep -q 'push what it takes' "$folder/stdout" || complaints+=("the operands are blamed in $(cat "$folder/stdout")")
done
end

begin lint_of_literals_left
write_clean
sed -i 's/^{ output.title }/{ output.title "left" }/' clean.bst
run_lint clean.bst
wants_status 2
grep -qE '^clean.bst:.*(literals may be left|may leave )' "$folder/stdout" || complaints+=("printed is $(cat "$folder/stdout")")
end

begin lint_of_a_missing_brace
write_clean
sed -i 's/newline\$ } if\$ }/newline$ } if$/' clean.bst
run_lint clean.bst
wants_status 2
head -n 4 "$folder/stdout" >first
grep -qxF 'clean.bst:3: a `}` is missing in FUNCTION {output.title}, lines 3-4' first || complaints+=("the first lines are $(cat first)")
[ "$(grep -c 'is missing in' "$folder/stdout")" -eq 1 ] || complaints+=('it is said more than once')
! grep -q '^Error--' "$folder/stdout" || complaints+=("what follows is shown in $(cat "$folder/stdout")")
write_clean
sed -i "s/{ title empty.*/{ title empty\$\n    'skip\$\n    { title write\$ newline\$\n  if\$\n}/" clean.bst
run_lint clean.bst
wants_line_of_output '    clean.bst:6:     { title write$ newline$'
wants_line_of_output '    what to do: close this brace before line 7: `if$` stands further left there'
end

begin lint_of_a_misspelt_command
write_clean
sed -i 's/^FUNCTION {output.title}/INTEGER { count }\n\nFUNCTION {output.title}\n{ #1 '"'"'count := }\n\nFUNCTION {output.two}/' clean.bst
run_lint clean.bst
wants_status 2
head -n 4 "$folder/stdout" >first
grep -qF 'is it INTEGERS?' first || complaints+=("the first lines are $(cat first)")
wants_line_of_output "clean.bst: 1 warning follows from the mistakes above: \`:=\` to a name that isn't known, in line 6"
end

# What EXECUTE, ITERATE and REVERSE name is no definition of it: the name that may be meant is said.
begin lint_of_a_misspelt_name_in_a_command
write_clean
sed -i 's/^ITERATE .*/FUNCTION {begin} { newline$ }\n\nEXECUTE {begn}\n\nITERATE {cal.type$}/' clean.bst
run_lint clean.bst
wants_status 2
wants_line_of_output '    is it begin?'
wants_line_of_output '    is it call.type$?'
! grep -q 'the style defines it' "$folder/stdout" || complaints+=("a name that isn't defined is called so in $(cat "$folder/stdout")")
end

begin lint_of_what_has_no_use
write_clean
sed -i 's/^READ/INTEGERS { zero } STRINGS { s }\n\nFUNCTION {not.used} { "x" '"'"'s := zero pop$ }\n\nREAD/' clean.bst
run_lint clean.bst
wants_status 0
wants_line_of_output 'clean.bst:11: hint: the integer zero is always 0: nothing assigns to it'
wants_line_of_output 'clean.bst:11: hint: the variable s is assigned, and its value never used'
wants_line_of_output 'clean.bst:13: hint: the function not.used is never used'
end

# Each warning is shown by an entry that was tried: the job is run once more here.
begin lint_shows_an_entry
write_clean
sed -i "s/{ title empty.*/{ author empty\\$ 'skip\\$\n   { title write\\$ newline\\$ }\n  if\\$ }/" clean.bst
run_lint --entry clean.bst
wants_status 2
wants_line_of_output '    logs: Error--missing field is not a string while executing write$ for entry key'
sed -n '/shown by this database/,/logs:/p' "$folder/stdout" | grep '^        ' >d.bib
grep -q 'author = ' d.bib && [ "$(wc -l <d.bib)" -eq 2 ] || complaints+=("the entry is $(cat d.bib)")
cp clean.bst s.bst
cite key
run_search job
wants_status 2
grep -qxF '`title'"'"' is a missing field, not a string (write$) for entry key' job.blg || complaints+=("the log is $(cat job.blg)")
end

begin lint_shows_what_is_left
write_clean
sed -i 's/^{ output.title }/{ output.title title empty$ { "left" } '"'skip\$"' if$ }/' clean.bst
run_lint --entry clean.bst
wants_status 2
wants_line_of_output "    logs: Error--The literal stack isn't empty while executing ITERATE for entry key"
wants_line_of_output 'clean.bst:13: ITERATE {call.type$} may leave literals on the stack: 1 where it was met first'
! grep -q 'for entries of type' "$folder/stdout" || complaints+=("a type is named in $(cat "$folder/stdout")")
grep -q '^    left since: .*FUNCTION {article}, line 7$' "$folder/stdout" || complaints+=("printed is $(cat "$folder/stdout")")
end

# The names of the entry that is found begin with a digit, so its loop never ends.
begin lint_shows_an_entry_that_never_ends
write_clean
sed -i 's/^{ output.title }/{ output.title author empty$ '"'skip\$"' { { author #1 #1 substring$ "1" = } { skip$ } while$ } if$ }/' clean.bst
run_lint --entry clean.bst
wants_status 0
wants_line_of_output "    with this database, which was tried, a run isn't at its end after 10,000,000 steps, and stays in the loop in line 7:"
sed -n "/isn't at its end/,/^    it is clean/p" "$folder/stdout" | grep '^        ' >d.bib
[ "$(tr -s ' \n' ' ' <d.bib)" = ' @article{key, author = {1 2}} ' ] || complaints+=("the entry is $(cat d.bib)")
run_lint --json --entry clean.bst
grep -q '"ends": null, "endless": "@article{key,' "$folder/stdout" || complaints+=("the JSON is $(cat "$folder/stdout")")
end

# What the checker can't rule out and no entry shows: numbers that never come to what the test asks.
begin lint_says_what_is_possible_only
write_clean
sed -i 's/^{ output.title }/{ output.title cite$ text.length$ duplicate$ + #100000 > { #1 write$ } '"'skip\$"' if$ }/' clean.bst
run_lint --entry --json clean.bst
wants_status 2
python3 - "$folder/stdout" <<'END' || complaints+=('the JSON is another')
import json, sys
[style] = json.load(open(sys.argv[1]))
assert [warning["entry"] for warning in style["warnings"]] == [None], style
END
run_lint --entry clean.bst
wants_line_of_output '    possible only: no entry that was tried shows it'
end

# A variable that is given a number once is a constant.
begin lint_of_a_constant
write_clean
sed -i 's/^READ/INTEGERS { before.all }\n\nFUNCTION {constants} { #0 '"'before.all"' := before.all pop$ }\n\nREAD/' clean.bst
echo 'EXECUTE {constants}' >>clean.bst
run_lint --line clean.bst
wants_status 0
wants_output 'clean.bst: clean, literals 3, bodies 4, messages 0, hints 0
'
end

# write_type FILE BODY: a style whose entries of the type misc have this body.
write_type() {
    printf '%s\n' 'ENTRY {title author}{}{}' 'INTEGERS {i}' "FUNCTION {misc} {$2}" READ 'ITERATE {call.type$}' >"$1"
}

begin lint_of_an_endless_loop
write_clean
sed -i 's/^READ/INTEGERS { left }\n\nFUNCTION {turns} { #1 '"'left"' := { left #0 > } { newline$ } while$ }\n\nREAD/' clean.bst
echo 'EXECUTE {turns}' >>clean.bst
run_lint clean.bst
wants_status 0
wants_line_of_output 'clean.bst:13: hint: clean says nothing of loops: does this loop end? Its body (line 13) never changes left, which its test reads: left is assigned in line 13, and the body assigns to no variable'
[[ $(tail -n 2 "$folder/stdout") == *'clean says nothing of loops'*$'\nclean.bst: above: 1 hint (line 13)' ]] || complaints+=("it isn't the last line of $(cat "$folder/stdout")")
end

# What is to be mended isn't lost above the verdict: the last line counts it. Of a style of which nothing is said there is none.
begin lint_counts_what_stands_above
write_clean
run_lint clean.bst
! grep -q ': above: ' "$folder/stdout" || complaints+=("something is counted in $(cat "$folder/stdout")")
write_type above.bst "title empty$ {} {title write\$ #1} if$ newline$"
sed -i 's/^INTEGERS.*/INTEGERS {i j} STRINGS {s}/' above.bst
run_lint above.bst
wants_line_of_output 'above.bst: above: 1 unequal `if$` (line 3), 1 warning (line 5), 3 hints (line 2)'
wants_line_of_output 'above.bst:2: hint: these variables are never used: i (line 2), j (line 2), s (line 2)'
[[ $(tail -n 1 "$folder/stdout") == 'above.bst: above: '* ]] || complaints+=("it isn't the last line of $(cat "$folder/stdout")")
write_type above.bst 'title nosuch'
run_lint above.bst
wants_line_of_output 'above.bst: above: 1 message, 1 warning (line 5), 1 hint (line 2)'
grep -A1 -xF '    above.bst:3: FUNCTION {misc} {title nosuch}' "$folder/stdout" | grep -qx '                                        ^' || complaints+=('the mark is missing')
end

# The lines of the counter are missing, while the test's variable counts down.
begin lint_of_a_loop_that_does_not_count
write_clean
cat >>clean.bst <<'END'

INTEGERS { left at }

FUNCTION {turns}
{ #3 'left :=
  #1 'at :=
  { left #0 > }
  { at int.to.str$ write$
    left #1 - 'left :=
  }
  while$
}

EXECUTE {turns}
END
run_lint clean.bst
wants_status 0
wants_line_of_output 'clean.bst:20: hint: clean says nothing of loops: does this loop count? Its body (lines 21-24) uses at and never changes it'
end

# A style whose text has mistakes is never called clean, in no form.
begin lint_of_mistakes
write_clean
sed -i 's/title write\$/title nosuch write$/' clean.bst
run_lint --line clean.bst
wants_status 2
wants_output 'clean.bst: mistakes, messages 1, hints 0
'
run_lint --json clean.bst
wants_status 2
grep -q '"verdict": "mistakes", "ends": null, "messages": \[' "$folder/stdout" || complaints+=("printed is $(cat "$folder/stdout")")
run_lint clean.bst
wants_status 2
wants_line_of_output 'clean.bst: mistakes in its text (1 message): mend these first; no warning in what could be read of it'
! grep -q clean: "$folder/stdout" || complaints+=('it is called clean')
end

# A function that is met again with another value of a variable, which it reads in a quoted function alone, is followed again.
begin lint_of_a_function_met_again
long=$(printf 'skip$ %.0s' {1..12})
printf '%s\n' 'ENTRY {}{}{}' 'INTEGERS {i}' "FUNCTION {f} {$long #1 {i #1 = {#5 write\$} {skip\$} if\$} {skip\$} if\$}" "FUNCTION {g} {#0 'i := f #1 'i := f}" READ 'ITERATE {g}' >again.bst
run_lint again.bst
wants_line_of_output 'again.bst:3: in f: `write$` takes TEXT, and its TEXT is the integer 5 here'
wants_line_of_output 'again.bst: warnings: 1 place'
end

# One place may have two faults, each with its own condition.
begin lint_of_two_faults_at_a_place
write_type two.bst "title empty$ 'skip$ {#1} if$ write$"
run_lint two.bst
wants_line_of_output 'two.bst:3: in misc: `write$` takes TEXT, and there may be no literal on the stack here'
wants_line_of_output 'two.bst:3: in misc: `write$` takes TEXT, and its TEXT is the integer 1 here'
wants_line_of_output '    when: title is missing or blank'
wants_line_of_output '    when: title is given'
wants_line_of_output 'two.bst: warnings: 2 places'
end

# The outer of two uneven `if$` is uneven only since the inner one is.
begin lint_of_an_uneven_choice_in_another
write_type uneven.bst 'title empty$
  {author empty$ {"a"} {"a" "b"} if$}
  {}
  if$'
run_lint uneven.bst
wants_line_of_output 'uneven.bst:4: in misc: the branches of this `if$` leave different numbers of literals: the first leaves 1, the second leaves 2'
wants_line_of_output '    and, which may follow from it, in line 6'
end

# What leaves literals, what is exchanged, and what is one function where two are taken.
begin lint_names_the_token_that_is_meant
write_type left.bst 'title empty$ {"A" write$} {"B" write$} if$ "."'
run_lint left.bst
wants_line_of_output '    left by: misc leaves `"."` (line 3)'
write_type alone.bst 'title empty$ {newline$} if$'
run_lint alone.bst
wants_line_of_output '    what to do: only one function stands before this `if$` (line 3): write both, `'"'skip\$\` for one that does nothing"
write_type exchanged.bst "#3 'i := {i #1 - 'i :=} {i #0 >} while$"
run_lint exchanged.bst
wants_line_of_output '    what to do: these two are exchanged: write the test first, and then the body, `{TEST} {BODY} while$`'
write_type quotes.bst 'author num.names$ "1" > {newline$} {newline$} if$'
run_lint quotes.bst
wants_line_of_output '    what to do: write `#1` for `"1"`: an integer begins with `#`, and what stands in quotes is a string'
write_type field.bst 'volume missing$ {newline$} {"x" write$} if$'
run_lint field.bst
wants_line_of_output '    what to do: put `volume` into the first list of ENTRY (field.bst:1): a style knows only the fields of that list'
write_type field.bst '"x" volume * write$'
run_lint field.bst
wants_line_of_output '    what to do: put `volume` into the first list of ENTRY (field.bst:1): a style knows only the fields of that list'
end

# What is known of fields and of integers where a warning stands.
begin lint_of_what_is_known
write_type blank.bst "title missing$ 'skip$ {title empty$ {#1 write$} 'skip$ if$} if$"
write_type bounded.bst "#3 'i := {i #9 <} {i #1 + 'i :=} while$ i write$"
run_lint blank.bst
wants_line_of_output '    when: title is missing or blank'
run_lint --json blank.bst bounded.bst
python3 - "$folder/stdout" <<'END' || complaints+=('the JSON is another')
import json, sys
(blank,), (bounded,) = (style["warnings"] for style in json.load(open(sys.argv[1])))
assert blank["blank"] == ["title"] and blank["operand"]["integer"] == [1, 1], blank
assert bounded["operand"]["integer"] == [9, None], bounded
END
end

begin lint_as_json
write_clean
cp clean.bst faulty.bst
sed -i 's/title empty.*/title write$ nosuch }/' faulty.bst
run_lint --json clean.bst faulty.bst
wants_status 2
python3 - "$folder/stdout" <<'END' || complaints+=('the JSON is another')
import json, sys
clean, faulty = json.load(open(sys.argv[1]))
wanted = {"style": "clean.bst", "verdict": "clean", "literals": 3, "bodies": 4, "types": ["article"], "uncovered": ["output.title", "default.type"]}
assert clean == {**wanted, "ends": {"once": 0, "each": 13, "kept": 20000}, "messages": [], "warnings": [], "hints": []}, clean
assert faulty["verdict"] == "mistakes" and faulty["messages"] == ["Error--nosuch is an unknown function--line 4 of file faulty.bst"], faulty
assert [place["line"] for place in faulty["warnings"][0]["places"]] == [4, 7], faulty
assert faulty["warnings"][0]["executed"] == "write$" and faulty["warnings"][0]["missing"] == "title", faulty
END
end

begin lint_describes_its_json
LD_LIBRARY_PATH=$libraries python3 -B "$sources/tests/front/lint_json.py" "$room/bibtex-lint" >differences || complaints+=("$(cat differences)")
end

begin lint_along_the_search_path
write_clean
mkdir there
mv clean.bst there
BSTINPUTS=there libraries=$room/no_tex run_lint --line clean
wants_status 0
wants_output 'there/clean.bst: clean, literals 3, bodies 4, messages 0, hints 0
'
end

# What is promised of a clean style is said exactly: no fault of the stack or of kinds. It may log others.
begin lint_of_clean_style_with_an_illegal_format
use_style 'FUNCTION {f} { "A B" "x" change.case$ write$ "A B" #1 "{ff~}{vv~}{ll}{, jj" format.name$ write$ } ITERATE {f}'
run_lint s.bst
wants_status 2
wants_words "$folder/stdout" 'logs: "x" is an illegal case-conversion string'
wants_words "$folder/stdout" 'logs: The format string "{ff~}{vv~}{ll}{, jj" is illegal'
wants_words "$folder/stdout" "2 constants that the functions after them can't take, but no fault of the stack or of kinds"
run_lint --help
wants_words "$folder/stdout" 'It may log others, such as a format of names that is illegal.'
run_search -terse job
wants_status 2
end

begin lint_is_incomplete
write_clean
run_lint --line --steps=1 clean.bst
wants_status 3
wants_output 'clean.bst: incomplete, messages 0, hints 0
'
end

# No clock decides about the verdict: where a style has very many names the check takes fewer steps, on each machine as many.
begin lint_of_very_many_names
python3 - >many.bst <<'END'
names = ["v%d" % number for number in range(20_000)]
print("ENTRY {%s}{}{}\nFUNCTION {f} {%s}\nREAD ITERATE {f}" % (" ".join(names), " ".join(name + " write$" for name in names)))
END
run_lint many.bst
wants_status 2
wants_no_clock() {
    ! grep -q 'seconds' "$folder/stdout" || complaints+=("it speaks of seconds: $(grep seconds "$folder/stdout")")
}
wants_no_clock
cp "$folder/stdout" first
run_lint many.bst
cmp -s first "$folder/stdout" || complaints+=('another run says something else')
end

# The body of a loop that leaves a literal at each turn: the loops are named.
begin lint_of_a_loop_that_leaves_literals
cat >grows.bst <<'END'
ENTRY { author } {} {}
INTEGERS { n }

FUNCTION {names}
{ cite$ num.names$ 'n :=
  { n #0 > }
    { cite$ n "{ll}" format.name$
      n #1 - 'n :=
    }
  while$
}

READ

ITERATE {names}
END
run_lint grows.bst
wants_status 3
wants_line_of_output "grows.bst: incomplete: the check didn't come to its end: a loop may leave more literals at each turn, the style may go too deep, or the check may need more than 2000000 steps (--steps=N)"
wants_line_of_output '    loops: names (line 10)'
sed -i 's/format.name\$/& write$/' grows.bst
run_lint --line grows.bst
grep -q '^grows.bst: clean' "$folder/stdout" || complaints+=("where each turn takes what it leaves it prints $(cat "$folder/stdout")")
end

begin lint_refuses
run_lint
wants_status 1
run_lint --nosuch x
wants_status 1
wants_error_with "I don't know the option --nosuch"
run_lint nosuch.bst
wants_status 1
wants_error 'bibtex-lint: there is no style nosuch.bst
'
run_lint --help
wants_status 0
run_lint --version
wants_status 0
end

# What stands in a style's place, what may not be read, and what the machine can't read are three answers; and no other style's check is lost by them.
begin lint_of_what_is_no_style
write_clean
mkdir folder.bst
mkfifo pipe.bst
ln -s nosuch.bst link.bst
ln -s round.bst round.bst
run_lint --line folder pipe link round clean
wants_status 1
wants_output 'clean.bst: clean, literals 3, bodies 4, messages 0, hints 0
'
wants_error 'bibtex-lint: there is no style folder: it is a folder
bibtex-lint: there is no style pipe: it is no ordinary file
bibtex-lint: there is no style link
bibtex-lint: there is no style round
'
end

gcc -O2 -Wall -Werror -shared -fPIC -o "$room/fail_lint_open.so" "$sources/tests/fail_open.c" -ldl
for reason in 'EIO Input/output error' 'EMFILE Too many open files' 'EACCES Permission denied'; do
    begin "lint_at_${reason%% *}"
    write_clean
    cp clean.bst other.bst
    FAIL_OPEN=other.bst FAIL_REASON=${reason%% *} LD_PRELOAD=$room/fail_lint_open.so run_lint --line other clean nosuch
    wants_status 6
    wants_output 'clean.bst: clean, literals 3, bodies 4, messages 0, hints 0
'
    wants_error "bibtex-lint: other.bst can't be read: ${reason#* }
bibtex-lint: there is no style nosuch
"
    end
done

# With little memory a style is checked, or nothing is said of it but that memory was refused: it is never missing, incomplete, or possibly faulty only.
begin lint_with_little_memory
{
    letters 60000 '%% this is a comment of a long style\n'
    echo
    sed "s/title empty.*/title write\$ newline\$ }/"
} >long.bst < <(
    write_clean
    cat clean.bst
)
run_lint --json --entry long.bst
wants_status 2
cp "$folder/stdout" whole
for kilobytes in 5000 5700 6500 8192 10000 13000 16000 20000 24000 32000 48000; do
    status=0
    (
        ulimit -v "$kilobytes"
        LD_LIBRARY_PATH=$libraries exec timeout -k 5 "$seconds" "$room/bibtex-lint" --json --entry long.bst
    ) </dev/null >"$folder/stdout" 2>"$folder/stderr" || status=$?
    case $status in
    2) cmp -s whole "$folder/stdout" || complaints+=("with $kilobytes KB it prints $(head -c 500 "$folder/stdout")") ;;
    5) [ "$(tr -d ' \n' <"$folder/stdout")" = '[]' ] || [ ! -s "$folder/stdout" ] || complaints+=("with $kilobytes KB it prints $(head -c 500 "$folder/stdout")") ;;
    127) ! can_be_loaded "$kilobytes" "$room/bibtex-lint" || complaints+=("with $kilobytes KB it isn't loaded: $(cat "$folder/stderr")") ;;
    *) complaints+=("with $kilobytes KB the status is $status: $(cat "$folder/stderr")") ;;
    esac
done
end

begin lint_of_a_job
use_style 'FUNCTION {f} { title #1 + pop$ } ITERATE {f}'
run_lint --job job
wants_status 2
grep -q '^    in FUNCTION {f}, s.bst:1; called from ITERATE {f}, s.bst:1$' "$folder/stdout" || complaints+=("printed is $(cat "$folder/stdout")")
[ ! -e job.blg ] || complaints+=('a log is written')
for words in '--json --job job' '--job job --line' '--job job s'; do
    run_lint $words
    wants_status 1
    grep -q 'takes no style, and no other option than --trace' "$folder/stderr" || complaints+=("$words: $(cat "$folder/stderr")")
    [ ! -s "$folder/stdout" ] || complaints+=("$words: it prints $(head -n 3 "$folder/stdout")")
done
end

# A job that isn't there is refused, as a style is.
begin lint_of_no_job
mkdir folder.aux
for job in nosuch nosuch.aux folder; do
    run_lint --job "$job"
    wants_status 1
    wants_output ''
    grep -q "^bibtex-lint: there is no job $job: " "$folder/stderr" || complaints+=("of $job it says $(cat "$folder/stderr")")
done
use_style 'FUNCTION {f} { skip$ }'
FAIL_OPEN=job.aux FAIL_REASON=EIO LD_PRELOAD=$room/fail_lint_open.so run_lint --job job
wants_status 6
wants_error "bibtex-lint: I couldn't open file name \`job.aux': Input/output error
"
end

# Anything is a style: an answer comes in any case.
begin lint_of_odd_styles
write_clean
head -c 200000 /dev/urandom >random.bst
: >empty.bst
{ printf 'FUNCTION {f} '; letters 20000 '{'; letters 20000 '}'; } >deep.bst
{ for n in $(seq 3000); do echo "FUNCTION {f$n} { f$((n - 1)) f$((n - 1)) }"; done; echo 'EXECUTE {f3000}'; } >many.bst
for style in random empty deep many; do
    run_lint --line $style.bst
    [[ $status == [023] ]] || complaints+=("of $style.bst the status is $status")
done
end

if has kpsewhich; then
    begin lint_of_tex_s_styles
    for style in plain unsrt abbrv alpha apalike ieeetr; do
        run_lint --line $style
        wants_status 0
        grep -q "$style.bst: clean, " "$folder/stdout" || complaints+=("$style isn't clean")
    done
    end
fi

# A name that an `.aux` file can't have hides no mistake of the style.
begin style_of_an_odd_name
for name in 'my style' 'a}b' $'tab\tbed' 'one,two'; do
    printf 'ENTRY{}{}{}\nFUNCTION {misc} { nosuch }\nFOO\nREAD\n' >"$name.bst"
    run_lint "$name"
    wants_status 2
    grep -q "nosuch is an unknown function" "$folder/stdout" || complaints+=("nothing is said of $name: $(head -n 3 "$folder/stdout")")
    rm "$name.bst"
done
end

# A mistake below commands of many steps is found; a text that the style warns of is none.
begin lint_of_a_hidden_mistake
hide() {
    printf 'ENTRY{}{}{}\nINTEGERS{i}\nFUNCTION {f} { #0 '"'"'i := { i #%s < } { i #1 + '"'"'i := } while$ }\nREAD\nEXECUTE {f}\nnosuch\n' "$1" >hidden.bst
}
for rounds in 30000 3000000; do
    hide $rounds
    run_lint --line hidden.bst
    wants_status 2
    grep -qx 'hidden.bst: mistakes, messages 1, hints 0' "$folder/stdout" || complaints+=("behind $rounds rounds it prints $(cat "$folder/stdout")")
done
printf 'ENTRY{}{}{}\nFUNCTION {f} { "x" #10 int.to.chr$ * "Error--nosuch is an unknown function--line 3 of file forged.bst" * warning$ }\nREAD\nEXECUTE {f}\n' >forged.bst
run_lint --line forged.bst
grep -q 'messages 0' "$folder/stdout" || complaints+=("of a forged mistake it prints $(cat "$folder/stdout")")
end

# Where a line has the same token twice, no mark and no words are of the other one.
begin lint_of_a_token_twice
write_style_of_twice() {
    printf 'ENTRY{year}{}{}\nINTEGERS{j}\nSTRINGS{s}\nFUNCTION {book} { year empty$ { #1 '"'"'j := } { #1 '"'"'s := } if$ j pop$ s pop$ }\nREAD\nITERATE {call.type$}\n' >twice.bst
}
write_style_of_twice
run_lint twice.bst
wants_status 2
grep -q '`j`' "$folder/stdout" && complaints+=("it speaks of the other variable: $(cat "$folder/stdout")")
grep -q '^ *^$' "$folder/stdout" && complaints+=('it marks one of two tokens')
grep -q '^twice.bst:4: in book: `:=` takes' "$folder/stdout" || complaints+=("printed is $(cat "$folder/stdout")")
end

# A clean style has nothing to show, however many fields it has; and no style's verdict depends on one before it.
begin lint_of_many_fields
{
    printf 'ENTRY{'
    for n in $(seq 600); do printf 'f%d ' "$n"; done
    printf '}{}{}\n'
    for n in $(seq 40); do printf 'FUNCTION {t%d} { skip$ }\n' "$n"; done
    printf 'READ\nITERATE {call.type$}\n'
} >fields.bst
(ulimit -v 400000; LD_LIBRARY_PATH=$libraries exec timeout -k 5 "$seconds" "$room/bibtex-lint" --line --entry fields.bst) </dev/null >"$folder/stdout" 2>"$folder/stderr"
grep -q '^fields.bst: clean' "$folder/stdout" || complaints+=("printed is $(cat "$folder/stdout" "$folder/stderr")")
end

# Databases: with Python's package, without it, and what isn't imported.
write_base() {
    printf '%s\n' '@misc{a, title = {A}, pages = {1-2}}' '@misc{a, title = {B}}' '@misc{b, note 1}' >refs.bib
}

# without_python WORD..: runs bibtex-lint where there is no Python.
without_python() {
    status=0
    PATH=$folder/empty LD_LIBRARY_PATH=$libraries "$room/bibtex-lint" "$@" </dev/null >"$folder/stdout" 2>"$folder/stderr" || status=$?
}

begin lint_of_a_database_without_the_package
write_base
without_python refs.bib
wants_status 2
wants_output 'refs.bib:2: error: Repeated entry [repeated-key]
refs.bib:3: error: I was expecting an = [mistake]
'
wants_error_like "^bibtex-lint: only what a run would log is shown: Python's package btx, which examines more, isn't there$"
without_python --json refs.bib
wants_status 1
without_python nosuch.bib
wants_status 1
wants_error_like '^bibtex-lint: nosuch.bib: there is no such file'
for words in '--line refs.bib' '--steps=9 refs.bib' 'refs.bib clean'; do
    run_lint $words
    wants_status 1
done
end

# Several databases are those of one job.
begin lint_of_databases_without_the_package
write_base
printf '@book{B}\n@book{new}\n' >more.bib
without_python refs.bib more.bib
wants_status 2
wants_line_of_output 'more.bib:1: error: Repeated entry [repeated-key]'
[ "$(wc -l <"$folder/stdout")" -eq 3 ] || complaints+=("it says $(cat "$folder/stdout")")
end

begin lint_of_a_database_imports_nothing_from_its_folder
write_base
mkdir btx
echo 'open("taken", "w")' | tee btx/__init__.py >runpy.py
PYTHONPATH= run_lint refs.bib
wants_status 2
[ ! -e taken ] || complaints+=('what is in the folder was imported')
end

if [ -n "$library_for_python" ]; then
    begin lint_of_a_database_with_the_package
    write_base
    PYTHONPATH=$sources/python BTX_LIBRARY=$library_for_python PYTHONDONTWRITEBYTECODE=1 run_lint refs.bib
    wants_status 2
    wants_error ''
    for line in 'refs.bib:1:31: info: a range of pages with one hyphen: write `--` (a) [one-hyphen]' 'refs.bib:2:7: error: Repeated entry (a) [repeated-key]' \
        'refs.bib:3:15: error: I was expecting an = (b) [mistake]'; do
        wants_line_of_output "$line"
    done
    PYTHONPATH=$sources/python BTX_LIBRARY=$library_for_python PYTHONDONTWRITEBYTECODE=1 run_lint --json refs.bib
    wants_status 2
    wants_words "$folder/stdout" '"name": "one-hyphen"'
    end

    # (as make install puts it: beside the folder of the program)
    begin lint_of_a_database_with_the_installed_package
    write_base
    mkdir -p there/bin there/share/bibtex-proved
    cp "$search" there/bin/bibtex-search
    ln -s bibtex-search there/bin/bibtex-lint
    ln -s "$sources/python" there/share/bibtex-proved/python
    status=0
    PYTHONPATH='' BTX_LIBRARY=$library_for_python PYTHONDONTWRITEBYTECODE=1 there/bin/bibtex-lint refs.bib </dev/null >"$folder/stdout" 2>"$folder/stderr" || status=$?
    wants_status 2
    wants_line_of_output 'refs.bib:2:7: error: Repeated entry (a) [repeated-key]'
    end
else
    echo "left out: databases by Python's package (without libbtx.so.1 beside the programs or in library/out)"
fi
