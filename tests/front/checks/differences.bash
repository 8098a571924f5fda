# What docs/DIFFERENCES.md says of the original, where that is installed: it and bibtex-search run the same job, and each gives what is said there.

# list_both: the list of the original stands in original.bbl, that of bibtex-search in job.bbl.
list_both() {
    # (its status is not 0 where it has messages)
    bibtex job >original.log || true
    mv job.bbl original.bbl
    run_search job
}

# use_works: two databases, and a style that lists the keys.
use_works() {
    printf '@misc{k, title = {T}}\n@misc{l, title = {U}}\n' >d.bib
    printf '@misc{m, title = {V}}\n' >e.bib
    use_style 'FUNCTION {f} {cite$ write$ newline$} ITERATE {f}'
}

# lists NAME ORIGINAL HERE LINE..: of an .aux file with these lines the original lists these keys, and the program those.
lists() {
    begin "difference_$1"
    use_works
    printf '%s\n' "${@:4}" '\bibstyle{s}' >job.aux
    list_both
    wants_text original.bbl "$2"
    wants_text job.bbl "$3"
    end
}

# gives BODY ORIGINAL HERE: what a style writes by this body.
gives() {
    begin "difference_of_a_style_$((passed + failed))"
    printf 'ENTRY {title}{}{}\nFUNCTION {misc}{}\nREAD\nFUNCTION {f} {"[" write$ %s write$ "]" write$ newline$}\nEXECUTE {f}\n' "$1" >s.bst
    list_both
    wants_text original.bbl "[$2]"$'\n'
    wants_text job.bbl "[$3]"$'\n'
    end
}

if has bibtex; then
    # A faulty piece costs itself alone here, and the rest of its command there.
    lists rest_behind_another_case $'k\n' $'k\nl\n' '\citation{k,K,l}' '\bibdata{d}'
    lists rest_behind_a_repeated_database $'k\n' $'k\nm\n' '\citation{k,m}' '\bibdata{d,d,e}'
    lists rest_behind_a_lost_database '' $'k\nm\n' '\citation{k,m}' '\bibdata{nosuch,d,e}'
    # Both leave out what comes after whitespace, and after a brace too early.
    lists rest_behind_whitespace $'k\n' $'k\n' '\citation{k, m,l}' '\bibdata{d,e}'
    lists rest_behind_a_brace $'k\n' $'k\n' '\citation{k,l}m}' '\bibdata{d,e}'
    # A database may be named with its ending.
    lists ending_of_a_database $'k\n' $'k\n' '\citation{k}' '\bibdata{d.bib}'

    begin difference_after_a_faulty_database
    printf '%s\n' '\citation{k}' '\bibdata{d' '\bibdata{d}' '\bibstyle{s}' >job.aux
    list_both
    grep -q '^I found no database files---while reading file job.aux' original.log || complaints+=('the original reports something else')
    ! grep -q 'I found no' job.blg || complaints+=("the log is $(cat job.blg)")
    end

    gives '"Ann Lee and Bo Ray" #3 "{ll}" format.name$' Ray ''
    gives '"Ann Lee and Bo Ray" #0 "{ll}" format.name$' '' ''
    gives '"Ann Lee and Bo Ray" #-1 "{ll}" format.name$' '' ''
    gives '"" #1 "{ll}" format.name$' '' ''
    gives '"{\1}" purify$' 1 ''
    gives '"a}b" #1 "{ll}" format.name$' ab 'a}b'
    gives '"a{b" #1 "x{ll}y{" format.name$' 'xa{by' ''
    gives '"Lee" #1 "{~}{~}" format.name$' '~' '~~'
    gives '#2147483647 #1 + int.to.str$' -2147483648 0
    gives '"a:" "t" change.case$ pop$ " AB" "t" change.case$' ' Ab' ' ab'

    # A text without newline$ at the end, and equal keys that are sorted again.
    begin difference_of_a_pending_text
    use_style 'FUNCTION {f} {"a" write$} EXECUTE {f}'
    list_both
    wants_text original.bbl ''
    wants_text job.bbl $'a\n'
    end

    begin difference_of_ties
    cite 'k,l,m'
    use_works
    cat e.bib >>d.bib
    use_style "FUNCTION {x} {cite\$ \"l\" = {\"a\"} {\"b\"} if\$ 'sort.key\$ :=} FUNCTION {y} {\"\" 'sort.key\$ :=} FUNCTION {f} {cite\$ write\$ newline\$}
        ITERATE {x} SORT ITERATE {y} SORT ITERATE {f}"
    list_both
    wants_text original.bbl $'k\nl\nm\n'
    wants_text job.bbl $'l\nk\nm\n'
    end
else
    echo 'left out: what DIFFERENCES says of the original (without bibtex)'
fi
