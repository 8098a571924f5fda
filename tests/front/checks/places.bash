# Where a style stood at each error of its execution: function, line, callers and stack, printed with -explain, and the line in the .blg. tests/where/compare.py compares the
# library's notes with a tracer in Python.

# write_names: a style that hands the number and the names of `format.name$` over in the wrong order.
write_names() {
    cat >s.bst <<'END'
ENTRY { author title year } {} { label }
INTEGERS { numnames nameptr }
STRINGS { s t }

FUNCTION {names.text}
{ 's :=
  #1 'nameptr :=
  s num.names$ 'numnames :=
  { numnames #0 > }
    { nameptr s "{ff}" format.name$ write$
      nameptr #1 + 'nameptr :=
      numnames #1 - 'numnames :=
    }
  while$
}

FUNCTION {author.part}
{ author names.text
  cite$ write$ newline$
}

FUNCTION {book}
{ author.part }

READ

ITERATE {call.type$}
END
    cite kay
    printf '@book{kay, author = {Cy Kay}, year = 1999}\n' >d.bib
}

# wants_line_of_style N: the log's lines that say where the style stood have this number, and no other.
wants_line_of_style() {
    local found
    found=$(grep -F 'while executing---line ' job.blg | sort -u)
    [ "$found" = "while executing---line $1 of file s.bst" ] || complaints+=("the log has $found, not line $1")
}

begin place_of_an_error
write_names
run_search -explain job
wants_status 2
grep -qxF '    in {..} of FUNCTION {names.text}, s.bst:10; called from names.text, s.bst:14; author.part, s.bst:18; book, s.bst:23; ITERATE {call.type$}, s.bst:27' \
    "$folder/stdout" || complaints+=("printed is $(cat "$folder/stdout")")
grep -qxF '    on the stack: "{ff}", "Cy Kay", 1' "$folder/stdout" || complaints+=('the stack is another')
wants_line_of_style 10
end

begin place_along_the_search_path
write_names
mkdir there
mv s.bst there
BSTINPUTS=there run_plainly -explain job
grep -qF 'names.text}, there/s.bst:10; called from' "$folder/stdout" || complaints+=('the path is another')
wants_line_of_style 10
end

begin place_of_literals_left
use_style ''
cat >>s.bst <<'END'
FUNCTION {leaves} { title
  "left" }
ITERATE {leaves}
ITERATE {call.type$}
END
run_search -explain job
wants_status 2
grep '^    [l"]' "$folder/stdout" >left
wants_text left '    left by ITERATE {leaves}, s.bst:4
    "left" has been there since FUNCTION {leaves}, s.bst:3
    "T" has been there since FUNCTION {leaves}, s.bst:2
'
wants_line_of_style 4
end

# An endless loop is named, whatever it fills: the budget, the log's room, the list's room, the stack.
for name in budget log list stack; do
    begin "endless_$name"
    declare -A turn=([budget]="#9 'i :=" [log]='"text" warning$' [list]='"text" write$ newline$' [stack]='"text"')
    declare -A status_of=([budget]=4 [log]=3 [list]=3 [stack]=3)
    cat >s.bst <<END
ENTRY {title}{}{}
INTEGERS { i }
FUNCTION {count}
{ #1 'i :=
  { #1 }
    { ${turn[$name]} ${turn[$name]} ${turn[$name]}
      { i #3 < } { i #1 + 'i := } while$
    }
  while$
}
FUNCTION {misc} { count }
READ
ITERATE {call.type$}
END
    run_search -explain -budget=3000000 -log-room=1M -list-room=1M job
    wants_status "${status_of[$name]}"
    grep -qE '^    it stays in the loop of the `while\$` in (FUNCTION \{count\}|count), s\.bst:9$' "$folder/stdout" || complaints+=("printed is $(tail -n 8 "$folder/stdout")")
    wants_line_of_style 9
    end
done

begin place_at_a_small_budget
write_names
sed -i 's/"{ff}"/#1 "{ff}" pop$ pop$ "{ff}"/' s.bst
run_search -explain -budget=12 job
wants_status 4
grep -qE '^    in (\{\.\.\} of )?FUNCTION \{names\.text\}, s\.bst:[0-9]+; called from ' "$folder/stdout" || complaints+=("printed is $(cat "$folder/stdout")")
end

# The first hundred errors have their places, also where a style logs lines that look like errors.
begin places_of_many_errors
use_style "FUNCTION {f} {
$(for n in $(seq 150); do echo 'title #1 + pop$'; done)
} ITERATE {f}"
run_search -explain job
wants_status 2
[ "$(grep -c '^    in FUNCTION {f}, s.bst:[0-9]*; called from ITERATE {f}, s.bst:152$' "$folder/stdout")" -eq 100 ] || complaints+=('not 100 places are shown')
end

# Errors of one kind at one place are shown once, and counted; the end is shown as well.
begin places_of_errors_that_repeat
use_style 'FUNCTION {f} { { #1 } { title #1 + pop$ } while$ } ITERATE {f}'
run_search -explain -budget=2000 job
wants_status 4
[ "$(grep -c '^    in {\.\.} of FUNCTION {f}, s.bst:1; called from f, s.bst:1; ITERATE {f}, s.bst:1$' "$folder/stdout")" -eq 2 ] || complaints+=('the place is shown more than once')
grep -q '^([0-9]* more errors are like `Error--".*" is not an integer while executing + for entry k` in line 1 of the style; for k)$' "$folder/stdout" || complaints+=("printed was $(tail -n 5 "$folder/stdout")")
end

# Two faults of one kind in one line are two; what another entry meets at the same token is one of them again.
begin places_of_errors_in_one_line
use_style "FUNCTION {f} { title #1 + pop\$ title #2 + pop\$ { title #3 + pop\$ } pop\$ #1 { title #4 + pop\$ } 'skip\$ if\$ } ITERATE {f}"
cite k,l
printf '@misc{k, title = {T}}\n@misc{l, title = {U}}\n' >d.bib
run_search -explain job
wants_status 2
for number in 1 2 4; do
    [ "$(grep -cxF "    on the stack: $number, \"T\"" "$folder/stdout")" -eq 1 ] || complaints+=("the fault of number $number is not shown once")
done
[ "$(grep -c '^Error--' "$folder/stdout")" -eq 3 ] || complaints+=("printed is $(cat "$folder/stdout")")
[ "$(grep -cxF '(1 more error is like `Error--"T" is not an integer while executing + for entry k` in line 1 of the style; for l)' "$folder/stdout")" -eq 3 ] ||
    complaints+=("counted is $(grep like "$folder/stdout")")
end

# What to do is said of the token that is meant.
begin advice_for_a_token_of_many
printf "ENTRY{title}{}{}\nINTEGERS{n}\nSTRINGS{s}\nFUNCTION {misc} { title 's := #1 's := title 'n := }\nREAD\nITERATE {call.type\$}\n" >s.bst
run_search -explain job
wants_status 2
wants_line "$folder/stdout" "    what to do: \`s\` is a string (STRINGS, line 3), and \`#1\` is an integer; write \`int.to.str\$\` before \`'s\`: it makes a string of a number"
wants_words "$folder/stdout" '    what to do: `n` is an integer (INTEGERS, line 2), and `title` is a field; if `n` is to be a string, declare it in STRINGS, and not in line 2; else assign it'
end

# The field that is missing is named, through callers and built-in functions; where a function of the style leaves it, those that this function reads.
begin the_missing_field_is_named
cat >s.bst <<'END'
ENTRY { title note journal } {} {}
FUNCTION {out} { write$ newline$ }
FUNCTION {half} { title empty$ { title } { note } if$ }
FUNCTION {misc}
{ "x" title swap$ * pop$
  note duplicate$
  out pop$
  half write$
  journal "x" = pop$ }
READ
ITERATE {misc}
END
cite k
printf '@misc{k, year = 1999}\n' >d.bib
run_search -explain job
wants_status 2
for wanted in '`title`, pushed at s.bst:5' '`note`, pushed at s.bst:6' '`journal`, pushed at s.bst:9'; do
    wants_line "$folder/stdout" "    the missing field is $wanted"
done
wants_line "$folder/stdout" '    the missing field may be what `half` at s.bst:8 leaves, which reads `note`, `title`'
wants_line job.blg "\`title' is a missing field, not a string (*) for entry k"
wants_line job.blg "\`note' is a missing field, not a string (write\$) for entry k"
wants_line job.blg 'missing field is not a string (write$) for entry k'
wants_messages job.blg "$(python3 "$here/messages.py" <(sed -n '/^Error--/p;/^Warning--/p' "$folder/stdout" | sed '1i The top-level auxiliary file: job.aux'))"
[ "$(grep -c 'the missing field' "$folder/stdout")" -eq 4 ] || complaints+=("printed is $(cat "$folder/stdout")")
end

begin errors_that_a_style_invents
use_style 'FUNCTION {f} { "x" #10 int.to.chr$ * "Error--1 is not a string while executing write$ for entry k" * warning$
#1 write$ } ITERATE {f}'
run_search -explain job
wants_status 2
[ "$(grep -c '^    in FUNCTION {f}\|FUNCTION {f}' "$folder/stdout")" -ge 1 ] || complaints+=('the place of the true error is not shown')
! grep -q '1 is not a string while executing write\$ for entry k$' <(head -3 "$folder/stdout" | grep '^Error') || complaints+=('what the style prints is taken for an error')
end

# The library's second run is made only where there is an error of the execution.
begin no_place_without_an_error
use_style 'FUNCTION {f} { title write$ "w" warning$ } ITERATE {f}'
run_search -explain job
wants_status 0
! grep -q '^    in ' "$folder/stdout" || complaints+=('a place is shown')
end

# No clock decides what a log says: a run after another one, beside other work or on a machine fifty times as slow writes the same bytes. Each error has its line.
begin places_are_the_same_each_time
python3 - <<'END'
open("job.aux", "w").write("\\citation{*}\n\\bibdata{d}\n\\bibstyle{s}\n")
open("d.bib", "w").write("".join("@misc{k%d, title = {T}, note = {%s}}\n" % (number, "x" * 200) for number in range(1500)))
body = "#200 'i := {i #0 >} {note #10 #20 substring$ pop$ i #1 - 'i :=} while$\n  title #1 + pop$"
open("s.bst", "w").write("ENTRY {title note}{}{} INTEGERS {i}\nFUNCTION {misc}\n{ %s }\nREAD\nITERATE {misc}\n" % body)
END
run_search -terse job
cp job.blg first.blg
cp "$folder/stdout" first
[ "$(grep -c 'while executing---line 4 of file s.bst' first.blg)" -eq 1500 ] || complaints+=("the places are $(sort first.blg | uniq -c | sort -rn | head -n 3)")
! grep -q "Where the style stood isn't known" first.blg || complaints+=('the place of an error is not known')
for turn in $(seq "$([ -n "$few" ] && echo 4 || echo 50)"); do
    run_search -terse job
    cmp -s job.blg first.blg && cmp -s "$folder/stdout" first || complaints+=("run $turn has another log")
done
if [ -z "$few" ] && there_is valgrind 'the same log on a machine fifty times as slow'; then
    seconds=900
    LD_LIBRARY_PATH=$libraries valgrind -q "$search" -terse job </dev/null >"$folder/stdout" 2>/dev/null || true
    cmp -s job.blg first.blg || complaints+=('under valgrind the log is another one')
    seconds=60
fi
end

# A function that two others call takes what these push: only what was called shows which field it is. Of a function that may leave one field alone it is that one.
begin missing_fields_of_callers
cat >s.bst <<'END'
ENTRY {author editor note}{}{}
FUNCTION {names} { num.names$ pop$ }
FUNCTION {text} { #1 { note } { "" } if$ }
FUNCTION {either} { #1 { note } { editor } if$ }
FUNCTION {misc} { author names  editor names  text write$  either write$ }
READ
ITERATE {call.type$}
END
cite k
printf '@misc{k, year = 1999}\n' >d.bib
run_search -explain job
cp job.blg explained.blg
for words in -no-explain -terse -json; do
    run_search $words job
    wants_status 2
    cmp -s job.blg explained.blg || complaints+=("with $words the log is $(cat job.blg)")
done
[ "$(grep -A1 'missing field' job.blg)" = "\`author' is a missing field, not a string (num.names\$) for entry k
while executing---line 2 of file s.bst
\`editor' is a missing field, not a string (num.names\$) for entry k
while executing---line 2 of file s.bst
\`note' is a missing field, not a string (write\$) for entry k
while executing---line 5 of file s.bst
missing field is not a string (write\$) for entry k
while executing---line 5 of file s.bst" ] || complaints+=("the log is $(cat job.blg)")
run_search -no-explain job
cmp -s <(log_of "$folder/stdout") <(log_of job.blg) || complaints+=('what was printed is not the log')
wants_messages job.blg "$(messages explained.blg)"
end
