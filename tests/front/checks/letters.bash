# Letters of UTF-8 in lists: which reading of text gives which list, and what is said of half a letter. LaTeX refuses a list with half a letter.

# letters_job AUTHOR BODY: a job that writes what the body makes of its author.
letters_job() {
    printf '%s\n' '\citation{k}' '\bibdata{d}' '\bibstyle{s}' >job.aux
    printf '@misc{k, author = {%s}}\n' "$1" >d.bib
    printf '%s\n' 'ENTRY {author}{}{}' "FUNCTION {misc} {\"plain\" write\$ newline\$ $2 write\$ newline\$}" READ 'ITERATE {call.type$}' >s.bst
}

# says_of_letters [TEXT..]: standard output and the log have these lines on letters, and no others.
says_of_letters() {
    local file said
    for file in "$folder/stdout" job.blg; do
        said=$(grep -E 'half a letter|-letters|^Write the letter' "$file" || true)
        [ "$said" = "$(printf '%s\n' "$@")" ] || complaints+=("$file says of letters: $said")
    done
}

read_anew='The list is made with -text=utf8: read by bytes, it would have half a letter, which LaTeX refuses.'
prefix='author #1 text.prefix$'
piece='author #1 #1 substring$'

for words in '' '-text=auto'; do
    begin "half_letter_is_avoided_by_${words:-default}"
    letters_job 'Émile Zola' "$prefix"
    run_search -no-explain $words job
    wants_status 0
    wants_text job.bbl $'plain\nÉ\n'
    says_of_letters "$read_anew"
    end
done

begin half_letter_in_terse_output
letters_job 'Émile Zola' "$prefix"
run_search -terse job
wants_text "$folder/stdout" "$read_anew"$'\n'
end

begin half_letter_by_bytes
letters_job 'Émile Zola' "$prefix"
run_search -no-explain -text=bytes job
wants_text job.bbl $'plain\n\xC3\n'
says_of_letters 'Line 2 of the list has half a letter, which LaTeX refuses: try -text=utf8.'
end

begin half_letter_of_the_style
letters_job 'Émile Zola' "$piece"
run_search -no-explain job
wants_text job.bbl $'plain\n\xC3\n'
says_of_letters "Line 2 of the list has half a letter, which LaTeX refuses: the style cuts text by bytes." \
    "Write the letter as a command of TeX, such as {\\'e}, or take another style."
sed -i 's/"plain" write\$ newline\$/"\\\\bibitem{" cite$ * "}" * write$ newline$/' s.bst
run_search -no-explain job
says_of_letters "Line 2 of the list has half a letter, which LaTeX refuses: the style cuts text by bytes." \
    "Write the letter of the entry \`k\` as a command of TeX, such as {\\'e}, or take another style."
end

begin whole_letters_stay_as_they_are
letters_job 'Émile Zola' author
run_search -no-explain job
wants_text job.bbl $'plain\nÉmile Zola\n'
! grep -q 'half a letter' "$folder/stdout" job.blg || complaints+=('something is said of letters')
end

begin half_letter_of_files_in_another_encoding
letters_job $'\xC9mile Zola' "$prefix"
run_search -no-explain job
wants_text job.bbl $'plain\n\xC9\n'
! grep -q 'half a letter' "$folder/stdout" job.blg || complaints+=('something is said of letters')
end

# A value that isn't UTF-8 explains its own bytes in the list, and no half letter beside them.
begin half_letter_beside_values_in_another_encoding
letters_job 'Émile Zola' "$prefix"
printf '@misc{other, author = {Ren\xE9}}\n' >>d.bib
run_search -no-explain job
wants_text job.bbl $'plain\nÉ\n'
says_of_letters "$read_anew"
run_search -no-explain -text=bytes job
wants_text job.bbl $'plain\n\xC3\n'
says_of_letters 'Line 2 of the list has half a letter, which LaTeX refuses: try -text=utf8.'
run_search -no-explain -letters=de job
wants_text job.bbl $'plain\nÉ\n'
sed -i 's/{k}/{k,other}/' job.aux
run_search -no-explain -letters=de job
wants_text job.bbl $'plain\nÉ\nplain\nR\n'
says_of_letters "The list is made without -letters: an entry or a string isn't UTF-8." "$read_anew"
letters_job 'Émile Zola' 'author #1 #4 substring$'
printf '@misc{other, author = {Ren\xE9}}\n' >>d.bib
sed -i 's/{k}/{other,k}/' job.aux
run_search -no-explain job
wants_text job.bbl $'plain\nRen\xE9\nplain\nÉmi\n'
says_of_letters
letters_job 'Zoé' 'author #1 #3 substring$'
printf '@misc{other, author = {\xE9}, note = {\xC3\xA9}}\n' >>d.bib
sed -i 's/{k}/{other,k}/' job.aux
run_search -no-explain job
wants_text job.bbl $'plain\n\xE9\nplain\nZo\xC3\n'
says_of_letters 'Line 4 of the list has half a letter, which LaTeX refuses: the style cuts text by bytes.' \
    "Write the letter as a command of TeX, such as {\\'e}, or take another style."
end

begin half_letter_at_the_end_of_a_stopped_run
letters_job 'Émile Zola' "$piece write\$ author #2 #1 substring\$"
run_search -no-explain -budget=20 job
! grep -q 'half a letter' "$folder/stdout" job.blg || complaints+=('something is said of letters')
end

begin half_letter_of_a_style_in_another_encoding
letters_job 'Émile Zola' "$prefix"
printf '%% \xE9\n' >>s.bst
run_search -no-explain job
wants_text job.bbl $'plain\nÉ\n'
says_of_letters "$read_anew"
letters_job 'Émile Zola' "$prefix \"$(printf '\xE9')\" *"
run_search -no-explain job
wants_text job.bbl $'plain\n\xC3\xE9\n'
says_of_letters "Line 2 of the list has half a letter, which LaTeX refuses: the style isn't UTF-8."
end

# The letters of a language.

begin letters_sort_as_the_language_does
python3 "$here/letters.py" orders "$search" >said || complaints+=("letters.py: $(cat said)")
wants_words said '1,997 pairs of rows made for the rules, all in order'
grep -qx 'all | [0-9,]* | [67][0-9],[0-9]* | 0\.0' said || complaints+=("the table: $(cat said)")
end

# Wrong rules are seen: German names sorted by the rules of Swedish, and Swedish ones by those of German. Without perl the judge is the order of the file.
begin orders_by_other_rules_are_seen
mkdir of_tests && cp "$here"/letters.py "$here"/letter_orders.py of_tests
sed 's/^sv:/those of Swedish:/; s/^de:/sv:/; s/^those of Swedish:/de:/' "$here/names_by_language.txt" >of_tests/names_by_language.txt
! PATH=$folder/of_tests python3 of_tests/letters.py orders "$search" >said || complaints+=("letters.py: $(cat said)")
wants_words said "1,452 names in 17 languages, in the order of the file: perl or its module isn't there"
grep -q '^sv | 120 | 7,140 | [1-9][0-9]' said || complaints+=("the table: $(cat said)")
end

begin letters_have_their_case
letters_job 'Über die ÄSTHETIK' 'author "t" change.case$ write$ newline$ author "u" change.case$'
run_search -no-explain -letters=de job
wants_text job.bbl $'plain\nÜber die ästhetik\nÜBER DIE ÄSTHETIK\n'
says_of_letters
letters_job 'IŞIK İnan' 'author "l" change.case$ write$ newline$ author "u" change.case$'
run_search -no-explain -letters=tr job
wants_text job.bbl $'plain\nışık inan\nIŞIK İNAN\n'
end

begin first_names_begin_with_any_letter
letters_job 'Émile Zola' 'author #1 "{f.}|{vv}|{ll}" format.name$'
run_search -no-explain -letters=plain job
wants_text job.bbl $'plain\nÉ.||Zola\n'
end

begin letters_are_left_out_where_they_would_be_seen
for row in 'purify$|the style prints text that it made for sorting' '#1 #3 substring$|the style cuts text by bytes'; do
    letters_job 'é' "author ${row%%|*}"
    run_search -no-explain -letters=fr job
    wants_text job.bbl $'plain\né\n'
    says_of_letters "The list is made without -letters: ${row#*|}."
done
letters_job $'\xE9' author
run_search -no-explain -letters=fr job
wants_text job.bbl $'plain\n\xE9\n'
says_of_letters "The list is made without -letters: an entry or a string isn't UTF-8."
letters_job $'é\x01' author
run_search -no-explain -letters=fr job
says_of_letters 'The list is made without -letters: the style, an entry or a string has control characters.'
letters_job 'é' 'author write$ {#1} {} while$'
run_search -no-explain -letters=fr -budget=1000 job
wants_status 4
says_of_letters "The list is made without -letters: the run didn't finish."
end

begin letters_of_other_entries_change_nothing
letters_job 'Österreicher, Max' author
printf '@misc{other, author = {\xE9\x01}}\n' >>d.bib
run_search -no-explain -letters=de job
wants_text job.bbl $'plain\nÖsterreicher, Max\n'
says_of_letters
letters_job 'Max' 'author purify$'
printf '@misc{other, author = {Österreicher}}\n' >>d.bib
run_search -no-explain -letters=de job
wants_text job.bbl $'plain\nMax\n'
says_of_letters
end

begin parents_named_by_strings_are_found
printf '%s\n' '\citation{k}' '\bibdata{d}' '\bibstyle{s}' >job.aux
printf '%s\n' '@string{q = "ö"} @string{p = {Mü} # q} @string{r = {Äpfel}}' '@misc{k, crossref = P, title = r}' '@misc{Müö, author = {Émile Zola}}' >d.bib
printf '%s\n' 'ENTRY {author title}{}{}' 'FUNCTION {misc} {title missing$ {"-"} {title "u" change.case$} if$ write$ newline$ author #1 "{f.}" format.name$ write$ newline$}' READ 'ITERATE {call.type$}' >s.bst
run_search -no-explain -letters=de job
wants_text job.bbl $'ÄPFEL\nÉ.\n'
says_of_letters
end

begin a_database_of_ascii_is_as_it_was
letters_job 'Charles I and Aaron Chvatal' 'author purify$ write$ newline$ author "l" change.case$'
for language in no plain cs da tr; do
    run_search -no-explain -letters=$language job
    wants_text job.bbl $'plain\nCharles I and Aaron Chvatal\ncharles i and aaron chvatal\n'
    says_of_letters
done
end

begin messages_have_the_letters_too
letters_job 'Émile {É}, , , Zola' 'author #1 "{ll}" format.name$ author top$ "ö" #1 +'
run_search -explain -letters=sv job
wants_status 2
! grep -q $'[\x01-\x08\x0e-\x1f\xfe\xff]' "$folder/stdout" job.blg || complaints+=("codes are seen: $(cat -v job.blg)")
wants_words job.blg 'Émile {É}, , , Zola'
end

begin letters_of_no_language
for language in xx '' DE; do
    run_search "-letters=$language" job
    wants_status 1
    wants_error_like "^bibtex-search: the value of -letters is no or one of plain, de, .*, not '$language'"
done
end

# What docs/DIFFERENCES.md says of TeX Live's styles.
if has kpsewhich && [ -z "$few" ]; then
    begin half_letters_of_tex_live
    python3 "$here/letters.py" styles "$search" "$(kpsewhich -expand-var='$TEXMFDIST')/bibtex/bst" >said || complaints+=("letters.py: $(cat said)")
    ! grep -qE '^(half a letter in silence|left over|braces)' said || complaints+=("$(cat said)")
    grep '^half a letter: \(auto\|letters\):' said | grep -qv ': [0-2]\( \|$\)' && complaints+=("$(cat said)")
    end
fi
