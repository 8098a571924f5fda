# Each option reaches the run.

# wants_list LIST OPTION..: with these options the run writes this list.
wants_list() {
    local list=$1
    shift
    rm -f list
    run "$tests/job" . job list log "$@"
    wants_error ''
    wants_text list "$list"
}

begin min_crossrefs
cite a,b
printf '@misc{a, crossref = {p}} @misc{b, crossref = {p}} @misc{p}' >d.bib
use_style 'FUNCTION {f} {cite$ write$ newline$} ITERATE {f}'
wants_list $'a\nb\np\n'
wants_list $'a\nb\np\n' min_crossrefs=1
wants_list $'a\nb\n' min_crossrefs=3
end

begin line
use_style 'FUNCTION {f} {"aaaaaaaaaa bbbbbbbbbbbb" write$ newline$} EXECUTE {f}'
wants_list $'aaaaaaaaaa bbbbbbbbbbbb\n'
wants_list $'aaaaaaaaaa\n  bbbbbbbbbbbb\n' line=20
end

begin entry_max
printf 'ENTRY {} {} {s} STRINGS {g} READ FUNCTION {f} {"abcdef" '"'s :="' "abcdef" '"'g :="' s g * write$ newline$} ITERATE {f}' >s.bst
cite k
printf '@misc{k}' >d.bib
wants_list $'abcdefabcdef\n'
wants_list $'abcabcdef\n' entry_max=3
wants_list $'abcdefabcd\n' global_max=4
end

begin budget
use_style 'FUNCTION {f} {{#1} {"a" write$ newline$} while$} EXECUTE {f}'
run "$tests/job" . job list log budget=7
wants_status 4
run "$tests/job" . job list log budget=0
wants_status 4
end

begin utf8
use_style 'FUNCTION {f} {"'$'\303\251''" text.length$ int.to.str$ write$ newline$} EXECUTE {f}'
wants_list $'2\n'
wants_list $'1\n' utf8=1
end

# The same status and the same counts as in the report of the program.
begin report
cite k,K,nosuch
use_style 'FUNCTION {f} {"w" warning$} EXECUTE {f}'
run "$tests/job" . job list log
wants_status 2
wants_output "status 2, $(printf 'end 0, steps %s, deepest %s' "$(sed -n 's/^Ended:.*steps //p' log)" 1), warnings $(grep -c '^Warning--' log), errors $(grep -c '^Error--' log)
"
end
