# What no message is about, and what is said of it: signs that look right in an editor, a document that is newer than its .aux file, and a list that has more, or less, than is meant.

# unsaid_of NAME FIELDS WORDS..: of the cited entry k with these fields, in a style that changes the case of titles and looks for a hyphen between pages, these words are said.
unsaid_of() {
    begin "unsaid_$1"
    printf '%s\n' 'ENTRY {author title pages}{}{}' 'FUNCTION {misc} {author pop$ title "t" change.case$ pop$ pages "-" = pop$}' 'READ' 'ITERATE {call.type$}' >s.bst
    cite k
    printf '%b' "@misc{k, title = {T},\n $2\n}\n" >d.bib
    run_search -explain job
    wants_status 0
    local words
    for words in "${@:3}"; do
        wants_words "$folder/stdout" "$words"
    done
    end
}

unsaid_of accent 'pages = {1}, author = {Erdo\xcc\x8bs, P.}' 'd.bib:2:' 'write `ő`, one letter, or `{\H{o}}`: an `o` and an accent of its own (U+030B) stand here, at which LaTeX stops'
unsaid_of dash 'pages = {85\xe2\x80\x93103}' 'd.bib:2:' 'write `85--103`: the dash here (U+2013, an en dash) is no hyphen, by which this style knows that there are several pages'
unsaid_of nothing 'pages = {85--103}' 'Ended: finished, warnings 0, errors 0'

begin unsaid_formula
printf '%s\n' 'ENTRY {title}{}{}' 'FUNCTION {misc} {title "t" change.case$ write$ newline$}' 'READ' 'ITERATE {call.type$}' >s.bst
cite k,l
printf '%s\n' '@misc{k, title = {An $O(n)$ network}}' '@misc{l, title = {An {$O(n)$} network}}' >d.bib
run_search -explain job
wants_words "$folder/stdout" 'd.bib:1:' 'put `$O(n)$` into braces, as `{$O(n)$}`: this style makes `$o(n)$` of it'
! grep -q 'd.bib:2' "$folder/stdout" || complaints+=("a formula in braces is shown: $(cat "$folder/stdout")")
end

begin unsaid_document_newer_than_aux
printf '%s\n' 'ENTRY {title}{}{}' 'FUNCTION {misc} {title write$ newline$}' 'READ' 'ITERATE {call.type$}' >s.bst
cite k
printf '%s\n' '@misc{k, title = {T}}' '@misc{l, title = {T}}' >d.bib
printf '%s\n' '\cite{k}' 'See \cite{l,nosuch}.' '% \cite{l}' >job.tex
touch -d 2020-01-01 job.aux
run_search -explain job
wants_words "$folder/stdout" 'No message is about this, since job.aux is older than job.tex:' 'job.tex:2: See \cite{l,nosuch}.' 'run LaTeX, then BibTeX: job.aux is older than job.tex, and doesn'"'"'t cite `l`'
touch -d 2020-01-01 job.tex
touch job.aux
run_search -explain job
! grep -q 'is older' "$folder/stdout" || complaints+=("a document that isn't newer is said to be: $(cat "$folder/stdout")")
end

begin unsaid_list_of_all_entries
printf '%s\n' 'ENTRY {title}{}{}' 'FUNCTION {misc} {title write$ newline$}' 'READ' 'ITERATE {call.type$}' >s.bst
printf '%s\n' '\citation{k}' '\citation{*}' '\bibdata{d}' '\bibstyle{s}' >job.aux
printf '%s\n' '@misc{k, title = {T}}' '@misc{l, title = {T}}' '@misc{m, title = {T}}' >d.bib
run_search -explain job
wants_words "$folder/stdout" '(The list has all entries by `\nocite{*}`, job.aux:2: 2 that nothing else cites.)'
printf '%s\n' '\cite{k}' '\nocite{*}' >job.tex
run_search -explain job
wants_words "$folder/stdout" '(The list has all entries by `\nocite{*}`, job.tex:2: 2 that nothing else cites.)'
sed -i 1d job.aux
run_search -explain job
! grep -q 'has all entries' "$folder/stdout" || complaints+=("a list of all entries alone is meant: $(cat "$folder/stdout")")
end

begin unsaid_longest_label
printf '%s\n' 'ENTRY {title}{}{}' 'STRINGS {longest}' 'INTEGERS {width}' 'FUNCTION {misc} {"\bibitem{" cite$ * "}" * write$ newline$}' 'READ' \
    'FUNCTION {pass} {cite$ width$ width <' ' { cite$ '"'longest := cite\$ width\$ 'width :=" ' } '"'skip\$ if\$ }" 'EXECUTE {begin}' 'ITERATE {pass}' \
    'FUNCTION {list} {"\begin{thebibliography}{" longest * "}" * write$ newline$}' 'EXECUTE {list}' 'ITERATE {call.type$}' >s.bst
sed -i "s/^FUNCTION {pass}/FUNCTION {begin} {\"\" 'longest := #0 'width :=}\n&/" s.bst
cite k
printf '%s\n' '@misc{k, title = {T}}' >d.bib
run_search -explain job
wants_words "$folder/stdout" 'the list begins with `\begin{thebibliography}{}`, without the longest label' 's.bst:12: FUNCTION {list}' 'see why no entry comes to where `longest` gets a label (s.bst, line 8)'
wants_words "$folder/stdout" 's.bst:7: in pass: `width$ width <` never holds: width begins as 0'
sed -i 's/width <$/width >/' s.bst
run_search -explain job
! grep -q 'longest label\|never holds' "$folder/stdout" || complaints+=("a list with its label is complained of: $(cat "$folder/stdout")")
end

begin named_twice_in_the_document
printf '%s\n' 'ENTRY {title}{}{}' 'FUNCTION {misc} {title write$ newline$}' 'READ' 'ITERATE {call.type$}' >s.bst
cp s.bst t.bst
printf '%s\n' '\bibstyle{s}' '\citation{Key}' '\citation{key}' '\bibstyle{t}' '\bibdata{d}' '\bibdata{e}' >job.aux
printf '%s\n' '@misc{Key, title = {T}}' >d.bib
printf '%s\n' '\bibliographystyle{s}' '\cite{Key}' '\cite{key}' '\bibliographystyle{t}' '\bibliography{d}' '\bibliography{e}' >job.tex
run_search -explain job
wants_words "$folder/stdout" 'job.tex:4: \bibliographystyle{t}' '`s` (job.tex:1) is in effect, since it stands first; take it away if `t` (line 4) is meant' \
    'job.tex:6: \bibliography{e}' 'job.tex:3: \cite{key}' 'd.bib has `Key`'
end

begin comment_in_an_entry
printf '%s\n' 'ENTRY {title}{}{}' 'FUNCTION {misc} {title write$ newline$}' 'READ' 'ITERATE {call.type$}' >s.bst
cite k
printf '%s\n' '@misc{k,' ' % note = {old},' ' title = {T}}' >d.bib
run_search -explain job
wants_words "$folder/stdout" 'take this line out, or its `%`'
sed -i 's/% note.*/% old/' d.bib
run_search -explain job
wants_words "$folder/stdout" 'take this comment out: a database has no comments inside an entry'
end

begin loop_in_which_a_run_stays
printf '%s\n' 'ENTRY {title}{}{}' 'STRINGS {u}' 'INTEGERS {found}' 'FUNCTION {not} { { #0 } { #1 } if$ }' 'FUNCTION {or} { { pop$ #1 } '"'skip\$ if\$ }" \
    "FUNCTION {misc} { title 'u := #0 'found :=" ' { found not u empty$ not or }' " { u #1 #1 substring\$ \"-\" = { #1 'found := } { u #2 global.max\$ substring\$ 'u := } if\$ }" \
    ' while$ }' 'READ' 'ITERATE {call.type$}' >s.bst
cite k
printf '%s\n' '@misc{k, title = {a-b}}' >d.bib
run_search -explain --budget=3000000 job
wants_words "$folder/stdout" 'it stays in the loop of the `while$` in misc, s.bst:9' 'look at the test of this loop, `found not u empty$ not or` (line 7): no turn so far has made it 0, and it reads found and u'
! grep -q 'budget`' "$folder/stdout" || complaints+=("a greater budget is advised for a loop: $(cat "$folder/stdout")")
end
