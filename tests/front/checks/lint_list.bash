# Hints of bibtex-lint on the list that a style makes, and what is said of a loop that counts on to its end.

ln -sf "$search" "$room/bibtex-lint"

# lints_list WORD..: runs bibtex-lint as run_search runs bibtex-search.
lints_list() {
    status=0
    (ulimit -v 4000000; LD_LIBRARY_PATH=$libraries exec timeout -k 5 "$seconds" "$room/bibtex-lint" "$@") </dev/null >"$folder/stdout" 2>"$folder/stderr" || status=$?
}

begin lint_of_the_list
cat >list.bst <<'STYLE'
ENTRY { author title journal booktitle year institute pages note volume } { } { label }
STRINGS { s t longest }
INTEGERS { multi width }
FUNCTION {names} { 's := s #1 "{f.~}{ll}" format.name$ write$ newline$ }
FUNCTION {has.range} { 't := #0 'multi := t #1 #1 substring$ "-" = { #1 'multi := } 'skip$ if$ multi }
FUNCTION {format.pages}
{ pages has.range
    { "page " pages * }
    { "pages " pages * }
  if$
}
FUNCTION {misc} { cite$ names }
READ
FUNCTION {presort}
{ label width$ width <
    { label 'longest := label width$ 'width := }
    'skip$
  if$
}
ITERATE {presort}
ITERATE {call.type$}
FUNCTION {end} { longest write$ newline$ "b" write$ }
EXECUTE {end}
STYLE
lints_list list.bst
wants_words "$folder/stdout" 'list.bst:1: hint: ENTRY has the field institute, and databases have institution, which the style doesn'"'"'t read: is it institution?'
wants_words "$folder/stdout" 'list.bst:4: hint: in names: the format `{f.~}{ll}` has no `{vv~}`, and no other one that prints has it, so `van Rossum` is printed as `Rossum`: write `{vv~}` before `{ll}`'
wants_words "$folder/stdout" 'list.bst:8: hint: in format.pages: the branches after `has.range` seem exchanged: the first has the word for one page, and it is for several'
wants_words "$folder/stdout" 'list.bst:15: hint: in presort: `width$ width <` never holds: width begins as 0, and nothing is less wide than that: is `>` meant?'
wants_words "$folder/stdout" 'list.bst:22: hint: what a run writes last, in end, has no `newline$` after it: the original BibTeX loses that line'
sed -i -e 's/institute/institution/' -e 's/{ll}" f/{vv~}{ll}" f/' -e 's/"page /"PAGES /' -e 's/"pages /"page /' -e 's/width <$/width >/' -e 's/"b" write\$/& newline$/' list.bst
lints_list list.bst
! grep -qE 'institut|vv~|exchanged|never holds|writes last' "$folder/stdout" || complaints+=("what is right has a hint: $(cat "$folder/stdout")")
end

# A loop that counts on to its end at each turn has no known bound, but nothing suggests that it doesn't end.
begin lint_of_a_loop_that_counts_up
cat >up.bst <<'STYLE'
ENTRY { title } { } { }
INTEGERS { i n }
FUNCTION {not} { { #0 } { #1 } if$ }
FUNCTION {misc} { cite$ num.names$ 'n := #1 'i := { i n > not } { i #1 + 'i := } while$ }
READ
ITERATE {call.type$}
STYLE
lints_list up.bst
wants_status 0
wants_words "$folder/stdout" 'up.bst: no bound is known: `while$` in line 4, in misc, counts i on to n at each turn; a bound is known of loops that count down, and of some others'
! grep -q 'known to end' "$folder/stdout" || complaints+=("a loop that counts on is said not to be known to end: $(cat "$folder/stdout")")
sed -i "s/{ i #1 + 'i := }/{ cite\$ empty\$ 'skip\$ { i #1 + 'i := } if\$ }/" up.bst
lints_list up.bst
wants_words "$folder/stdout" 'up.bst: not known to end: `while$` in line 4, in misc: its body isn'"'"'t known to count towards its end, to make a text shorter or to walk along it'
end
