# Mistakes that authors make: from what -explain says of each, the place and what to do are known.

# write_author_style: a style that reads few fields, and warns of a journal that is empty.
write_author_style() {
    printf '%s\n' 'ENTRY {author title journal month year}{}{}' 'MACRO {jan} {"January"}' 'MACRO {feb} {"February"}' \
        'FUNCTION {misc} {author num.names$ pop$}' \
        'FUNCTION {article} {journal empty$ {"empty journal in " cite$ * warning$} {} if$}' 'READ' 'ITERATE {call.type$}' >s.bst
}

# mistake NAME DATABASE WORDS..: of the keys k and l, with this database, these words are said.
mistake() {
    begin "mistake_$1"
    write_author_style
    cite k,l
    printf '%b' "$2" >d.bib
    run_search -explain -terse job
    local words
    for words in "${@:3}"; do
        wants_words "$folder/stdout" "$words"
    done
    end
}

# mistake_of_job NAME KEYS DATABASES STYLE WORDS..: the same of a job that names these, with a faultless database.
mistake_of_job() {
    begin "mistake_$1"
    write_author_style
    printf '\\citation{%s}\n\\bibdata{%s}\n\\bibstyle{%s}\n' "$2" "$3" "$4" | grep -v '{}$' >job.aux
    printf '@misc{k, author = {A. B}, title = {T}, year = 2000}\n@misc{on-sets, author = {A. B}}\n@misc{caf\xc3\xa9, author = {A. B}}\n' >d.bib
    run_search -explain -terse job
    local words
    for words in "${@:5}"; do
        wants_words "$folder/stdout" "$words"
    done
    end
}

# keys and commas
mistake no_comma '@misc{k,\n author = {A. B}\n title = {T}}\n' 'd.bib:3:' 'put a comma after the value of `author`, which ends at d.bib:2'
mistake no_comma_after_key '@misc{k\n author = {A. B}}\n' 'd.bib:2:' 'put a comma after the key `k`'
mistake key_of_words '@misc{k 2010,\n author = {A. B}}\n' 'd.bib:1:' 'write the key without whitespace: `k2010`'
mistake no_key_at_all '@misc{, author = {A. B}}\n' 'the @misc that begins at d.bib:1 has no key: is it that one?' 'write the key into it: `@misc{k,`'
mistake field_for_a_key '@misc{\n author={Smith},\n title = {T}}\n' 'the @misc that begins at d.bib:1 has no key: is it that one?' 'write the key into it: `@misc{k,`'
mistake field_of_words_for_a_key '@misc{author={A. B}, title = {T}}\n' 'in @misc, which begins at d.bib:1' 'write the entry'"'"'s key first: `@misc{KEY, author = ..`'
mistake comma_twice '@misc{k,, author = {A. B}}\n' 'take out one of the two commas'
mistake semicolon_after_key '@misc{k; author = {A. B}}\n' 'write a comma after the key `k`, in the place of the `;`'
mistake semicolon_after_value '@misc{k, author = {A. B}, year=2000 ;}\n' 'write a comma after the value of `year`, in the place of the `;`'
mistake no_type '@{k, author = {A. B}}\n' 'write the type after the `@`, as in `@article{KEY, ..`'
for beginning in 'no_brace:@misc k,' 'no_type:@{k,' 'bracket:@misc[k,' 'semicolon:@misc{k;'; do
    mistake "unread_${beginning%%:*}" "${beginning#*:} author = {A. B}, title = {T}}\n" '`k` stands at d.bib:1, in an entry that can'"'"'t be read' 'mend the error at d.bib:1: the entry is skipped after it'
done
mistake no_at 'misc{k, author = {A. B}}\n@misc{m}' '`k` stands at d.bib:1, in text that isn'"'"'t read' 'write `@` and the entry'"'"'s type before it'
mistake in_a_comment '@comment{k, author = {A. B}}\n@misc{m}' '`k` stands at d.bib:1, in text that isn'"'"'t read'
# values
mistake no_equals '@misc{k,\n author {A. B}}\n' 'd.bib:2:' 'put an `=` after `author`'
mistake colon '@misc{k,\n author : {A. B}}\n' 'write `author = ..`, with an `=` in the place of the `:`'
mistake field_of_words '@misc{k,\n book title = {T}}\n' 'write the field'"'"'s name without whitespace: `booktitle = ..`'
mistake conflict '@misc{k,\n<<<<<<< HEAD\n title = {A},\n=======\n title = {B},\n>>>>>>> other\n}\n' 'd.bib:2:' 'take out the lines that begin with `<<<<<<<`'
mistake no_parent '@misc{k, crossref = {nowhere}}\n' 'no database has the entry `nowhere`: write it below all entries that name it, or take the field `crossref` out'
mistake string_that_failed '@string{e = "E}\n@article{k, journal = e}\n' 'mend the `@string` of `e` (d.bib:1): it has an error, so it defines nothing'
mistake plus_for_hash '@misc{k,\n title = {A} + {B},\n author = {A. B}}\n' 'write `#` in the place of the `+`: it joins the parts of the value of `title`'
mistake second_quote '@misc{k,\n title = "A,\n}\n' 'close the value of `title`, which begins at d.bib:2: its second quote is missing'
mistake other_brace_after_comma '@misc(k,\n title = {A},\n}\n' 'close this item by `)`, since it is opened by `(`: @misc{k}, which begins at d.bib:1'
mistake bare_text '@misc{k,\n title = A title,\n year = 2000}\n' 'put the value of `title` into braces'
mistake bare_pages '@misc{k,\n pages = 1-10}\n' 'put the value of `pages` into braces'
mistake no_brace '@misc{k,\n author = A. B},\n title = {T}}\n' 'put the value of `author` into braces'
mistake no_value '@misc{k,\n title = ,\n year = 2000}\n' 'write the value of `title` after the `=`, or take the field out'
mistake near_string '@misc{k, author = {A. B}, month = janu}\n' 'write `jan`, or define `janu` by `@string` above its use'
mistake key_of_first_field '@misc{\n author = {A. B}}\n' 'the @misc that begins at d.bib:1 has no key: is it that one?' 'write the key into it: `@misc{k,`'
mistake curly_quotes '@misc{k,\n title = “Title”}\n' 'put the value into braces: `“` isn'"'"'t the quote `"`'
mistake bare_command '@misc{k, author = {A. B}, title=\\url{http://x}}\n' 'put the value into braces: `{\url..}`' 'put the value of `title` into braces'
mistake no_hash '@misc{k,\n month = "10~" jan}\n' 'join the parts of the value of `month` by `#`'
mistake no_hash_before_a_month '@misc{k,\n month = 12 # " " jun}\n' 'join the parts of the value of `month` by `#`: write one before `jun`'
mistake letter_for_a_digit '@misc{k, author = {A. B},\n year = 2O12}\n' 'write `2012`: the `O` is a letter in the place of a digit'
mistake letter_before_digits '@misc{k, author = {A. B}, year = l998}\n' 'write `1998`: the `l` is a letter in the place of a digit'
mistake months_in_one '@misc{k,\n author = {A. B}, month = jan-feb}\n' 'join two names by `#`: `jan # "--" # feb`'
mistake string_below '@misc{k, author = {A. B}, title = s}\n\n@string{s = {T}}\n' 'move the `@string` of `s` (d.bib:3) above its first use'
mistake no_month_for_a_journal '@article{k, author = {A. B}, journal = jna}\n' 'define `jna` by `@string` above its use, or put braces or quotes round a text'
mistake near_string_below '@misc{k, author = {A. B}, title = acmm}\n\n@string{acm = {T}}\n' 'is it `acm`?' 'write `acm` for `acmm`, and move the `@string` of `acm` (d.bib:3) above its first use'
mistake bare_string '@string{s = A title}\n@misc{k, author = {A. B}}' 'put the value of `s` into braces'
mistake bare_preamble '@preamble{\\\\newcommand{\\\\x}{y}}\n@misc{k, author = {A. B}}' 'put the text of the `@preamble` into braces or quotes'
# braces and quotes
mistake names_in_two_braces '@misc{k,\n author = {Doe, Jane} and {Roe, Max},\n year = 2000}\n' 'put all names into one pair of braces: `author = {Doe, Jane and Roe, Max}`'
mistake brace_too_many '@misc{k,\n title = {A {T}} more},\n year = 2000}\n' 'count the braces in the value of `title`: a `}` too many ends it before this place'
mistake value_runs_on '@misc{k,\n author = {A. B},\n title = {A {T},\n year = 2000\n}\n\n@misc{l}\n' \
    'close the value of `title`, which begins at d.bib:3: it has taken in what looks like the field `year` (d.bib:4)'
mistake quotes_in_quotes '@misc{k, author = {A. B},\n title = "On "Sense" and so on"}\n' 'put the whole value of `title` into braces, and write ``..'"''"' within it'
mistake accent_in_quotes '@misc{k, author = "K. G\\"odel"}\n' 'put the quote in the value of `author` into braces, as in `{\"o}`'
mistake breaks_off '@misc{l}\n\n@misc{k, author = {A. B},\n title = {The T\n' 'it breaks off in @misc{k}, which begins at d.bib:3. Or write what is missing there, and close it by `}`'
mistake quote_runs_on '@misc{k,\n author = "A. B,\n title = {T}\n}\n' 'close the value of `author`, which begins at d.bib:2: it has taken in what looks like the field `title` (d.bib:3)'
for value in 'braces:{100% of {T}' 'quote:"T' 'two:{T {X}'; do
    mistake "value_runs_on_in_a_line_${value%%:*}" "@misc{k, author={A. B}, title=${value#*:}, journal={J}, year=2000}\n" \
        'close the value of `title`, which begins at d.bib:1: it has taken in what looks like the field `journal` (d.bib:1)'
done
mistake value_runs_to_the_end '@misc{k,\n author = {A. B,\n title = {T}\n}\n' 'close the value of `author`, which begins at d.bib:2'
mistake not_closed_at_end '@misc{k, author = {A. B},\n title = {T}\n' 'close @misc{k}, which begins at d.bib:1: its last `}` is missing'
mistake other_brace '@misc(k, author = {A. B},\n title = {T}\n}\n' 'close this item by `)`, since it is opened by `(`: @misc{k}, which begins at d.bib:1'
# comments
mistake comment_in_entry '@misc{k,\n % old\n author = {A. B}}\n' 'take this comment out: a database has no comments inside an entry'
mistake comment_before_entry '% @misc{old, title = {T}\n@misc{k, author = {A. B}}\n' 'take out the `@` of @misc{old}, which begins at d.bib:1: neither `%` nor `@comment` hides an entry'
mistake entry_in_comment '@comment{@misc{k, title = {T}}}\n@misc{k, author = {A. B}}\n' 'take out the `@` of @misc{k}, which begins at d.bib:1'
# fields
mistake of_biblatex '@article{k, journaltitle = {J}}\n' 'it has `journaltitle`: is it `journal`? (d.bib:1)' 'call it `journal`: `journaltitle` is a field of `biblatex`'
mistake field_of_another_type '@article{k,\n booktitle = {J}}\n' 'it has `booktitle`: is it `journal`? (d.bib:2)' 'call it `journal`, as entries of this type have it'
mistake space_of_no_break '@article{k,\n author = {A. B},\n journal\xc2\xa0 = {J}}\n' 'has a no-break space (U+00A0) (d.bib:3)' 'write the name once more, without that space: `journal`'
mistake follows_from_an_error '@article{k,\n author = {A. B}\n journal = {J}}\n' 'this may follow from the error above: from d.bib:3 on, nothing of the entry is read'
mistake follows_from_a_string '@article{k, author = {A. B}, journal = zz}\n' "this follows from above: the string \`zz\` isn't defined"
# keys
mistake near_parent '@article{k, author = {A. B}, crossref = {vol95}}\n@book{vol1995}\n' 'is it `vol1995`, which begins at d.bib:2?' 'write `crossref = {vol1995}`' "the entry's parent wasn't found"
mistake parent_above '@book{vol}\n@misc{k, author = {A. B}, crossref = {vol}}\n@misc{l, author = {C. D}}\n' 'move `vol` below all entries that name it, or cite it'
mistake other_case '@misc{K, author = {A. B}}\n@misc{k, author = {C. D}}\n@misc{l, author = {E. F}}\n' "give the entry \`K\` another key, such as \`Kb\`, and cite it by that: the document cites \`k\`, and case doesn't tell keys apart. Remove it only if it is the same work"
mistake another_work '@misc{k, author = {A. B}, title = {Of hens}}\n@misc{K, title = {Of ducks}}\n@misc{l, author = {E. F}}\n' "give the entry \`K\` another key, such as \`Kb\`, and cite it by that: the document cites \`k\`, and case doesn't tell keys apart. Remove it only if it is the same work"
mistake one_work '@misc{k, author = {A. B}, title = {Of hens}}\n@misc{K, title = {Of {Hens}}}\n@misc{l, author = {E. F}}\n' "remove the entry \`K\`: the document cites \`k\`, and case doesn't tell keys apart"
mistake one_doi '@misc{k, author = {A. B}, title = {Of hens}, doi = {10.1/X}}\n@misc{K, title = {Hens}, doi = {10.1/x}}\n@misc{l, author = {E. F}}\n' "remove the entry \`K\`: the document cites \`k\`, and case doesn't tell keys apart"
mistake another_title '@misc{k, author = {A. B}, title = {Of hens}}\n@misc{k, title = {Of ducks}}\n@misc{l, author = {E. F}}\n' 'give the second another key, such as `kb`, and cite it by that: its title is another one'
mistake the_same_title '@misc{k, author = {A. B}, title = {Of hens}}\n@misc{k, title = {{Of Hens}}}\n@misc{l, author = {E. F}}\n' 'remove one of the two'
mistake record_of_ris '@misc{k, author = {A. B}}\n\nTY  - JOUR\nID  - l\nER  - \n' '`l` stands at d.bib:4, in a record of RIS (from line 3), which isn'"'"'t read' 'export that record as BibTeX: what stands there is RIS'
mistake lacked_field '@misc{k, title = {T}}\n' 'give the entry a field `author`: this style takes it without asking whether it is there'
# parents
mistake parent_of_the_only_child '@misc{p, author = {A. B}}\n@misc{k, author = {A. B}, crossref = {p}}\n' '`p` stands at d.bib:1, above an entry that names it as its parent (d.bib:2)' 'what to do: move `p` below all entries that name it, or cite it'
# files
mistake utf16 '\xff\xfe@\0m\0i\0s\0c\0{\0k\0,\0' 'save d.bib as UTF-8: it is in UTF-16'
mistake html '<!DOCTYPE html>\n<style>@media print { }</style>\n' 'download d.bib once more: what stands in it is a page of the web (HTML)' '(1 more key has no entry: no entry stands in d.bib)'
mistake ris 'TY  - JOUR\nAU  - B, A\n' 'export d.bib as BibTeX: what stands in it is RIS'
mistake one_line '@misc{k,\r author {A. B}}\r' 'save d.bib with the line ends of Unix or Windows'
mistake empty '' 'no entry stands in d.bib' '(1 more key has no entry: no entry stands in d.bib)'
mistake_of_job other_database k,l,m refs s 'this folder has d.bib' 'write `\bibliography{d}` and run LaTeX, or put `refs.bib` beside' 'it may stand in refs.bib, which wasn'"'"'t found' '(2 more keys have no entry: they may stand in refs.bib, which wasn'"'"'t found)'
mistake_of_job semicolon 'k;on-sets' d s 'write `k,on-sets` in the `\cite`, with a comma between two keys, and run LaTeX'
mistake_of_job form_of_letters $'cafe\xcc\x81,k' d s $'`caf\xc3\xa9`, which begins at d.bib:3, is this key in another form: here a mark follows its letter, there both are one character' $'copy the key `caf\xc3\xa9` from the database into the `\\cite`'
mistake_of_job dash 'on–sets,k' d s '`on–sets` has an en dash (U+2013): is it `on-sets`, which begins at d.bib:2?' 'write `on-sets` in the `\cite`, with the `-` of the keyboard'
mistake_of_job space_between_databases k,l 'd, e' s 'not taken from this line: `e`' "it may stand in e.bib, which wasn't read (job.aux:2)" 'mend the error at job.aux:2 first'
mistake_of_job folder k bib/d s 'is it `d`?'
mistake_of_job no_database k '' s 'write `\bibliography{refs}` with the name of your database, and run LaTeX' 'no database is named'
mistake_of_job no_style k d '' 'write `\bibliographystyle{plain}`, or another style, and run LaTeX'
mistake_of_job plane k d plane 'is it `plain`?'

begin mistake_style_with_a_mark
printf '\xef\xbb\xbf' | cat - s.bst >t.bst
mv t.bst s.bst
run_search -explain -terse job
wants_words "$folder/stdout" 'save s.bst without a byte order mark: it stands before the first word'
end

begin mistake_crossref_in_entry
sed -i 's/ENTRY *{ */ENTRY {crossref /' s.bst
run_search -explain -terse job
wants_words "$folder/stdout" 'take `crossref` out of ENTRY: each entry has that field'
end

# A command of a style that is skipped: the errors on the order of others follow from that.
begin mistake_of_order_follows
printf '%s\n' 'ENTRY {title crossref}{}{}' '' 'FUNCTION {f} {title pop$}' '' 'READ' '' 'ITERATE {f}' '' 'SORT' >s.bst
run_search -explain -terse job
[ "$(grep -c 'what to do' "$folder/stdout")" -eq 1 ] || complaints+=("more than one mistake is explained: $(cat "$folder/stdout")")
wants_words "$folder/stdout" 'more errors follow from that)'
end

begin mistake_field_not_in_entry
printf '%s\n' 'ENTRY {title}{}{}' 'FUNCTION {article} {doi empty$ {skip$} {skip$} if$}' 'READ' >s.bst
run_search -explain -terse job
wants_words "$folder/stdout" 'put `doi` into the first list of ENTRY (s.bst:1): a style knows only the fields of that list'
end

begin mistake_number_in_quotes
printf '%s\n' 'ENTRY {title}{}{}' 'FUNCTION {f} {#1 "4" > pop$}' 'READ' 'EXECUTE {f}' >s.bst
run_search -explain -terse job
wants_words "$folder/stdout" 'write `#4` for `"4"`: an integer begins with `#`, and what stands in quotes is a string'
end

begin mistake_type_of_the_style
printf '%s\n' 'ENTRY {title}{}{}' 'FUNCTION {inproceeding} {}' 'FUNCTION {default.type} {}' 'READ' >s.bst
cite k,l
printf '@inproceedings{k} @inproceedings{l}\n' >d.bib
run_search -explain -terse job
wants_words "$folder/stdout" 'call the style'"'"'s function `inproceeding` (s.bst:2) `inproceedings`, as the type is called'
[ "$(grep -c 'what to do' "$folder/stdout")" -eq 1 ] || complaints+=("it is said more than once: $(cat "$folder/stdout")")
end

begin mistake_loop_without_end
printf '%s\n' 'ENTRY {title}{}{}' 'INTEGERS {n}' 'FUNCTION {f} {#1 '"'"'n := {n #0 > {#1} {#0} if$}' '{n #1 - pop$} while$}' 'READ' 'EXECUTE {f}' >s.bst
run_search -explain -terse -budget 1000 job
wants_words "$folder/stdout" 'change n in the body of this loop (line 4): its test reads nothing else, so the loop never ends'
! grep -q 'budget' "$folder/stdout" || complaints+=("a higher budget is advised: $(cat "$folder/stdout")")
end

begin mistake_loop_says_what_is_assigned
printf '%s\n' 'ENTRY {title}{}{}' 'INTEGERS {i n}' 'FUNCTION {f} {#1 '"'"'i := #3 '"'"'n :=' '{n #0 >}' '{i #1 + '"'"'i :=} while$}' 'READ' 'EXECUTE {f}' >s.bst
run_search -explain -terse -budget 1000 job
wants_words "$folder/stdout" 'n is assigned in line 3, and the body assigns to i (line 5)'
sed -i 's/{n #0 >}/{i #0 >} n pop$/; s/n pop[$]//' s.bst
run_search -explain -terse -budget 1000 job
wants_words "$folder/stdout" 'its test is `i #0 >` (line 4), and its body counts i away from that: `i #1 +` (line 5)'
wants_words "$folder/stdout" 'what to do: write `-` for `+` in line 5, or another test'
end

# A loop that asks for names that aren't there is one mistake.
begin mistake_names_that_are_not_there
printf '%s\n' 'ENTRY {author}{}{}' 'INTEGERS {i}' 'FUNCTION {misc} {#1 '"'"'i := {i #9 <} {author i "{ll}" format.name$ pop$ i #1 + '"'"'i :=} while$}' 'READ' 'ITERATE {call.type$}' >s.bst
cite k
printf '@misc{k, author = {A. B and C. D}}\n' >d.bib
run_search -explain -terse job
wants_words "$folder/stdout" '(5 more errors ask for further names of that list: a loop of the style counts on past its last name)'
[ "$(grep -c '^Error' "$folder/stdout")" -eq 1 ] || complaints+=("more than one is shown: $(cat "$folder/stdout")")
end

# A value without its end takes in the fields after it: an error of its names follows from that, whether or not an error is about the entry.
begin mistake_names_take_in_a_field
write_author_style
sed -i 's/author num.names[$] pop[$]/author #1 "{ll}" format.name$ pop$/' s.bst
cite k
printf '@misc{k,\n author = {Lee, Ann, title = {A}, month = {jan},\n year = {2000}, note = {x}}}\n' >d.bib
run_search -explain -terse job
wants_words "$folder/stdout" 'what to do: close the value of `author`, which begins at d.bib:2: it has taken in what looks like the field'
! grep -q 'a name has at most two commas' "$folder/stdout" || complaints+=("commas are blamed: $(cat "$folder/stdout")")
printf '@misc{k,\n author = {Lee, Ann, title = {A}, month = {jan}, year = {2000}}\n\n@misc{l, author = {A. B}}\n' >d.bib
run_search -explain -terse job
wants_words "$folder/stdout" 'this follows from the error above, at d.bib:4: mend that first'
! grep -q 'a name has at most two commas' "$folder/stdout" || complaints+=("commas are blamed: $(cat "$folder/stdout")")
end

begin mistake_two_fields_of_which_one_is_taken
write_author_style
sed -i 's/empty journal in " cite/can'"'"'t use both volume and number fields in " cite/' s.bst
cite k
printf '@article{k, author = {A. B}}\n' >d.bib
run_search -explain -terse job
wants_words "$folder/stdout" 'take `volume` or `number` out of the entry: this style prints only one of them'
end

begin mistake_citation_that_is_not_taken
write_author_style
cite 'k l'
printf '@misc{k, author = {A. B}}\n' >d.bib
run_search -explain -terse job
wants_words "$folder/stdout" 'this may follow from the error above: that line wasn'"'"'t taken'
! grep -q 'nocite' "$folder/stdout" || complaints+=("a citation is missed: $(cat "$folder/stdout")")
end

begin mistake_part_of_a_document
mkdir parts
printf '%s\n' '\relax ' '\citation{k}' '\@setckpt{parts/one}{' '}' >parts/one.aux
printf '%s\n' '\relax ' '\@input{parts/one.aux}' '\bibstyle{s}' '\bibdata{d}' >paper.aux
run_search -explain -terse parts/one
wants_words "$folder/stdout" 'run it on `paper`: paper.aux includes parts/one.aux, which is a part of that document'
[ "$(grep -c 'what to do' "$folder/stdout")" -eq 1 ] || complaints+=("it is said more than once: $(cat "$folder/stdout")")
rm paper.aux
run_search -explain -terse parts/one
wants_words "$folder/stdout" 'run it on the whole document: parts/one.aux is of a part that `\include` names there'
end

# Where the document names what isn't there, if that is seen.
begin mistake_places_in_the_document
write_author_style
printf '%s\n' '\citation{gone}' '\citation{}' '\bibdata{ref,d}' '\bibstyle{s}' >job.aux
printf '@misc{k, author = {A. B}}\n' >d.bib
printf '%s\n' '% \cite{gone}' '\citep[see][]{k,' '  gone} \cite{}' '\bibliography{ref,d}' >job.tex
run_search -explain -terse job
for words in 'job.tex:3:   gone} \cite{}' 'job.tex:4: \bibliography{ref,d}'; do
    wants_words "$folder/stdout" "$words"
done
! grep -q 'job.aux:' "$folder/stdout" || complaints+=("a place of the .aux file is shown: $(cat "$folder/stdout")")
end

begin mistake_biber
printf '\\relax\n\\abx@aux@cite{0}{k}\n' >job.aux
run_search -explain -terse job
wants_words "$folder/stdout" 'run `biber job` in the place of BibTeX, or give `biblatex` the option `backend=bibtex` and run LaTeX'
[ "$(grep -c 'what to do' "$folder/stdout")" -eq 1 ] || complaints+=("it is said more than once: $(cat "$folder/stdout")")
end

# What the document beside the .aux file says.
begin mistake_aux_breaks_off
printf '\\relax\n\\citation{k}\n\\citation{abc' >job.aux
run_search -explain -terse job
wants_words "$folder/stdout" 'run LaTeX again to its end, then BibTeX: job.aux ends in the middle of a line'
[ "$(grep -c 'what to do' "$folder/stdout")" -eq 1 ] || complaints+=("it is said more than once: $(cat "$folder/stdout")")
end

begin mistake_older_aux
write_author_style
cite k,gone
printf '@misc{k, author = {A. B}}\n' >d.bib
printf '%s\n' '\cite{k}' '\bibliography{d}' >job.tex
touch -d '1 hour ago' job.aux
run_search -explain -terse job
wants_words "$folder/stdout" 'run LaTeX again, then BibTeX: `gone` isn'"'"'t in job.tex, so the `.aux` file is older'
printf '\\input{more}\n' >>job.tex
run_search -explain -terse job
! grep -q 'is older' "$folder/stdout" || complaints+=("a document that reads others is taken for whole: $(cat "$folder/stdout")")
printf '%s\n' '\citation{k}' '\bibdata{d}' >job.aux
run_search -explain -terse job
wants_words "$folder/stdout" 'write `\bibliographystyle{plain}`, or another style, above job.tex:2, and run LaTeX'
printf '\\bibliographystyle{s}\n' >>job.tex
run_search -explain -terse job
wants_words "$folder/stdout" 'run LaTeX again: job.tex:4 has `\bibliographystyle`, so the `.aux` file is older'
end

begin mistake_natbib_with_plain
write_author_style
mv s.bst plain.bst
printf '%s\n' '\citation{k,l}' '\bibdata{d}' '\bibstyle{plain}' >job.aux
printf '@misc{k, author = {A. B}} @misc{l, author = {C. D}}\n' >d.bib
printf '%s\n' '\usepackage{natbib}' '\citet{k}' '\bibliographystyle{plain}' >job.tex
run_search -explain job
wants_words "$folder/stdout" 'job.tex:3: \bibliographystyle{plain}' 
wants_words "$folder/stdout" 'write `\bibliographystyle{plainnat}`, or `\usepackage[numbers]{natbib}`'
wants_words "$folder/stdout" '(The `.aux` file cites what isn'"'"'t in job.tex: `l`. Run LaTeX again, if they aren'"'"'t cited any more.)'
sed -i 's/usepackage/usepackage[numbers]/' job.tex
run_search -explain job
! grep -q 'plainnat' "$folder/stdout" || complaints+=("numbers fit: $(cat "$folder/stdout")")
end

begin mistake_strings_in_a_later_database
write_author_style
printf '%s\n' '\citation{k,l}' '\bibdata{e,d,names}' '\bibstyle{s}' >job.aux
printf '@article{k, author = {A. B}, journal = aj}\n' >d.bib
printf '@article{l, author = {A. B}, journal = {J}}\n' >e.bib
printf '@string{aj = {A J}}\n' >names.bib
run_search -explain -terse job
wants_words "$folder/stdout" 'write `\bibliography{e,names,d}` and run LaTeX: names.bib defines the string and is read too late'
end

# A near string of a later database has to be read earlier, and one of an earlier database doesn't.
begin mistake_near_string_of_another_database
write_author_style
printf '%s\n' '\citation{k}' '\bibdata{d,names}' '\bibstyle{s}' >job.aux
printf '@article{k, author = {A. B}, journal = acmm}\n' >d.bib
printf '@string{acm = {A J}}\n' >names.bib
run_search -explain -terse job
wants_words "$folder/stdout" 'write `acm` for `acmm`, and write `\bibliography{names,d}` and run LaTeX: names.bib defines the string and is read too late'
sed -i 's/d,names/names,d/' job.aux
run_search -explain -terse job
wants_words "$folder/stdout" 'write `acm`, or define `acmm` by `@string` above its use'
! grep -q 'too late' "$folder/stdout" || complaints+=("it is read too late: $(cat "$folder/stdout")")
end

# Warnings that follow from one error above say so: the first, and eight more. The others are counted.
begin mistake_warnings_that_follow_are_counted
write_author_style
cite "$(seq -s , -f 'e%g' 20)"
seq -f '@article{e%g, author = {A. B}, journal = zz}' 20 >d.bib
run_search -explain -terse job
[ "$(grep -c 'this follows from above: the string `zz` isn' "$folder/stdout")" -eq 9 ] || complaints+=("not 9 follow: $(cat "$folder/stdout")")
wants_words "$folder/stdout" '(11 more warnings are like '
end

begin mistake_names_with_commas
write_author_style
sed -i 's/author num.names[$] pop[$]/author #1 "{ll}" format.name$ pop$ author #1 "{ff}" format.name$ pop$/' s.bst
cite k
printf '@misc{k, author = {Lee, A., Ray, B., Dunn, C.}}\n' >d.bib
run_search -explain -terse job
wants_words "$folder/stdout" 'write ` and ` between two names: `Lee, A. and Ray, B. and Dunn, C.`'
wants_words "$folder/stdout" '(1 more error is the same, for k: the style takes these names more than once)'
[ "$(grep -c '^Error' "$folder/stdout")" -eq 1 ] || complaints+=("the same error is shown twice: $(cat "$folder/stdout")")
end

begin mistake_commas_of_one_name
write_author_style
sed -i 's/author num.names[$] pop[$]/author #1 "{ll}" format.name$ pop$/' s.bst
cite k
printf '@misc{k, author = {Underwood, Paul, Jr., PhD}}\n' >d.bib
run_search -explain -terse job
wants_words "$folder/stdout" 'write `Underwood, Jr., Paul`: a name has at most two commas, `von Last, Jr, First`'
end

begin mistake_other_job
run_search -explain jbo
wants_status 3
wants_error_like 'is it `job`\?'
end

# Fields after an entry's end, of which the run logs nothing.
begin mistake_fields_after_the_end
write_author_style
cite k,l
printf '@misc{k, author = {A. B}, year=2000}},\n month=3,\n title={Important}}\n@misc{l, author = {A. B}}\n' >d.bib
run_search -explain job
wants_status 0
for words in 'No message is about these fields, which stand after the end of their entry:' 'd.bib:2:  month=3,' 'take out what ends @misc{k}, which begins at d.bib:1, before the field `month`'; do
    wants_words "$folder/stdout" "$words"
done
sed -i 's/}},$/,/' d.bib
run_search -explain job
! grep -q 'after the end' "$folder/stdout" || complaints+=("what is right is shown: $(cat "$folder/stdout")")
end

begin mistake_database_as_a_job
run_search -explain d.bib
wants_status 3
wants_error_like '\(JOB is the name of a document, without an ending\).*job'
run_search paper.pdf
wants_error_like '\(JOB is a name without an ending: paper\)'
end

# What no message is about, though an author may not have meant it so.
begin mistake_letters_that_get_small
write_author_style
sed -i 's/^FUNCTION {misc} {/&title empty$ {""} {title "t" change.case$} if$ pop$ /' s.bst
cite k
printf '%s\n' '@misc{k, author = {A. B}, title = {The IBM of others}}' >d.bib
run_search -explain job
wants_words "$folder/stdout" 'put `IBM` into braces, as `{IBM}`: this style makes `ibm` of it'
end

begin mistake_no_comma_between_keys
write_author_style
printf '%s\n' '\citation{k l}' '\bibdata{d}' '\bibstyle{s}' >job.aux
printf '%s\n' '@misc{k, author = {A. B}}' '@misc{l, author = {A. B}}' >d.bib
run_search -explain job
wants_words "$folder/stdout" 'write commas between the keys, and no space: `k,l`'
end

begin mistake_hidden_entry
write_author_style
cite k
printf '%s\n' '@comment{@misc{k, author = {A. B}}}' >d.bib
run_search -explain job
wants_words "$folder/stdout" 'take out the `@` of @misc{k}, which begins at d.bib:1: neither `%` nor `@comment` hides an entry'
end

begin mistakes_typed_keys
printf '%s\n' 'See [one] and [two].' 'Also [3] and [one,two].' >job.tex
printf '%s\n' '@misc{one, title = {T}}' '@misc{two, title = {T}}' >d.bib
printf '%s\n' '\bibdata{d}' '\bibstyle{s}' >job.aux
run_search -explain job
wants_words "$folder/stdout" 'write `\cite{one}` in the place of `[one]` (job.tex:1), and 2 more so: `[two]` in line 1, `[one,two]` in line 2, and run LaTeX'
end

# typed_job LINE: a document with this line and a citation, and its job.
typed_job() {
    write_author_style
    printf '%s\n' '\documentclass[a4paper]{article}' '\usepackage[latin1]{inputenc}' '\begin{document}' "$1" '\cite{zeta9}' '\end{document}' >job.tex
    printf '@misc{%s, author = {A. B}}\n' zeta9 latin1 a4paper ray-2001 sic x2 see 7 lee:sets >d.bib
    printf '%s\n' '\citation{zeta9}' '\bibdata{d}' '\bibstyle{s}' >job.aux
}

begin mistakes_typed_beside_citations
while IFS='|' read -r line typed key; do
    typed_job "$line"
    run_search -explain job
    wants_status 0
    wants_words "$folder/stdout" "what to do: write \`\\cite{$key}\` in the place of \`$typed\` (job.tex:4), and run LaTeX"
done <<'END'
as in [ray-2001] and more|[ray-2001]|ray-2001
As (Ray-2001), it is|(Ray-2001)|ray-2001
so [@x2; @ray-2001] says|[@x2; @ray-2001]|x2,ray-2001
by @ray-2001.|@ray-2001|ray-2001
then~[lee:sets] says|[lee:sets]|lee:sets
END
for line in 'quoted [sic] and sic' 'and (see) that, see there' '\item[x2] is' '\item [x2] is' 'f(x2) and $f(x2)$ or me@ray-2001.org' '[7] and [3], [nosuch1]' '% [ray-2001]' '\section*[x2]{X} \cite[x2]{zeta9}' 'the (sic)'; do
    typed_job "$line"
    run_search -explain job
    wants_status 0
    ! grep -q 'a citation may be meant' "$folder/stdout" || complaints+=("of '$line' is said: $(cat "$folder/stdout")")
done
end

# What LaTeX takes for a key where no brace follows the command; and keys of macros, which needn't stand in the document.
begin mistakes_of_citations_without_braces
while IFS='|' read -r line key said; do
    write_author_style
    printf '@misc{ray2001, author = {A. B}}\n' >d.bib
    printf '\\citation{%s,ray2001}\n\\bibdata{d}\n\\bibstyle{s}\n' "$key" >job.aux
    printf '%s\n' "$line" '\cite{ray2001}' >job.tex
    run_search -explain -terse job
    wants_words "$folder/stdout" "job.tex:1: ${line%% *}"
    wants_words "$folder/stdout" "what to do: write \`$said\` (job.tex:1), with braces round the key, and run LaTeX: without them LaTeX takes \`$key\` for it"
    ! grep -q 'is older' "$folder/stdout" || complaints+=("of '$line' is said: $(cat "$folder/stdout")")
done <<'END'
\citep ray2001, and|r|\citep{ray2001}
\citet[ray2001] X|X|\citet{ray2001}
\cite*(ray2001)|(|\cite{ray2001}
\cite nosuch|n|\cite{KEY}
END
printf '%s\n' '\newcommand{\byray}[1]{\citep{ray#1}}' '\byray{1999}' >job.tex
printf '%s\n' '\citation{ray1999}' '\bibdata{d}' '\bibstyle{s}' >job.aux
touch -d '1 hour ago' job.aux
run_search -explain -terse job
! grep -q 'is older' "$folder/stdout" || complaints+=("a macro makes the key: $(cat "$folder/stdout")")
printf '%s\n' '\byray' >job.tex
run_search -explain -terse job
wants_words "$folder/stdout" '`ray1999` isn'"'"'t in job.tex, so the `.aux` file is older'
touch -d '1 hour ago' job.tex
touch job.aux
run_search -explain -terse job
! grep -q 'is older' "$folder/stdout" || complaints+=("the .aux file is newer: $(cat "$folder/stdout")")
end

begin mistakes_of_an_empty_name_of_a_database
write_author_style
cite k
sed -i 's/bibdata{d}/bibdata{}/' job.aux
run_search -explain job
wants_words "$folder/stdout" 'what to do: write the name of your database into `\bibliography{}`, which is empty, and run LaTeX'
wants_words "$folder/stdout" 'a name of a database is empty'
! grep -qE 'look for|correct the name' "$folder/stdout" || complaints+=("printed is $(cat "$folder/stdout")")
printf '@misc{j, author = {A. B}}\n' >d.bib
sed -i 's/bibdata{}/bibdata{d,}/' job.aux
run_search -explain job
wants_words "$folder/stdout" 'what to do: write `\bibliography{d}`, without the comma beside which no name stands, and run LaTeX'
end

begin mistakes_renamed_database
write_author_style
mv d.bib refs.bib
printf '%s\n' '\citation{k}' '\bibdata{literature}' '\bibstyle{s}' >job.aux
run_search -explain job
wants_words "$folder/stdout" 'what to do: write `\bibliography{refs}` and run LaTeX, or put `literature.bib` beside'
! grep -q 'look for literature.bib' "$folder/stdout" || complaints+=("what to do is said twice: $(cat "$folder/stdout")")
end

begin mistakes_in_the_function_of_an_error
printf '%s\n' 'ENTRY {title}{}{}' 'INTEGERS {n}' 'FUNCTION {misc}' '{ #2 '"'"'n :=' ' title n 1 > pop$ pop$ }' 'READ' 'ITERATE {call.type$}' >s.bst
run_search -explain job
wants_words "$folder/stdout" 'write `#1`: an integer begins with `#`' 'this may follow from the error above at s.bst:5'
! grep -q 'push the operands in the order' "$folder/stdout" || complaints+=("what follows has its own advice: $(cat "$folder/stdout")")
end

begin mistakes_without_a_message
write_author_style
printf '%s\n' '\citation{a,b,c,d,e,f,g}' '\bibdata{d}' '\bibstyle{s}' >job.aux
printf '%s\n' '@misc{a, author = {A. B}, month = {jan}, url = {u}, abstract = {x}}' '@misc{b, author = {A. B and C. D and}, url = {u}}' '@misc{c, author = {A. B et al.}}' \
    '@misc{d, author = {A. B \& C. D}, tilte = {T}}' '@misc{e, author = {Ann Lee, Bob Ray, Cy Dunn}}' '@misc{f, author = {A. B and others and C. D}}' \
    '@misc{g, author = {Lee, Jr, A. B. and Ray, C.}, month = jan}' '@misc{h, month = {jan}}' >d.bib
run_search -explain job
wants_status 0
for words in 'BibTeX has no message on these, but they may not be meant so:' 'd.bib:1: @misc{a, author = {A. B}, month = {jan}' 'write `month = jan`, without braces or quotes: then it is the string of this name' 'take out this `and`: no name stands after it' \
    'write `and others`, of which the style makes et al.' 'write ` and ` between two names' 'with two commas this is one' 'put `and others` after the last name' 'this style never prints `url`' \
    "(Of the cited entries the style doesn't read: \`tilte\`, is it \`title\`?; \`url\` (2 times))" 'in @misc{d}, which begins at d.bib:4' 'what to do: write `title` for `tilte`'; do
    wants_words "$folder/stdout" "$words"
done
! grep -qE 'd.bib:[78]' "$folder/stdout" || complaints+=("what is right is shown: $(cat "$folder/stdout")")
run_search -explain -terse job
! grep -q 'No message' "$folder/stdout" || complaints+=("-terse says it too: $(cat "$folder/stdout")")
end

begin mistakes_of_organizations_and_formulas
write_author_style
printf '%s\n' '\citation{a,b,c}' '\bibdata{d}' '\bibstyle{s}' >job.aux
printf '%s\n' '@misc{a, author = {A. B and World Health Organization}}' '@misc{b, author = {{World Health Organization}}, title = {On $n}}' '@misc{c, author = {A. B}, title = {\$5, $n$ and \url{a/$b}}}' >d.bib
run_search -explain job
wants_status 0
for words in "put the organization's whole name into braces of its own" 'd.bib:1: ' 'write `\$` where no formula is meant' 'd.bib:2: '; do
    wants_words "$folder/stdout" "$words"
done
! grep -q 'd.bib:3' "$folder/stdout" || complaints+=("what is right is shown: $(cat "$folder/stdout")")
end

# doubt NAME FIELD WORDS..: of an entry with this field, whose style reads it, these words are said, and of the run nothing.
doubt() {
    begin "doubt_$1"
    write_author_style
    sed -i '1s/year/year note url booktitle/; 1s/$/ FUNCTION {label} {year purify$ #-1 #2 substring$}/' s.bst
    cite k
    printf '@misc{k,\n author = {A. B},\n %b\n}\n' "$2" >d.bib
    run_search -explain job
    wants_status 0
    local words
    for words in "${@:3}"; do
        wants_words "$folder/stdout" "$words"
    done
    end
}

doubt html 'title = {War &lt; Peace},' 'd.bib:3:' 'write `$<$` in the place of `&lt;`, which is a letter of HTML'
doubt number_of_html 'title = {War}, month = {1&#8211;2},' 'd.bib:3:' 'write `--` in the place of `&#8211;`, which is a letter of HTML'
doubt letter_in_a_year 'year = {2O12},' 'write `2012`: the `O` is a letter in the place of a digit'
doubt formula 'title = {Of H_2O},' 'put the formula into `$..$`, as in `{CO$_2$}`, or write `\_`: LaTeX stops at a `_` outside of a formula'
doubt brace_after_backslash 'note = {The set \\},' 'd.bib:3:' 'write `$\rbrace$` for a brace that is to be printed: BibTeX counts the brace of `\}`, so it ends the value here'
doubt table 'note = {Sturm & Drang},' 'write `\&`: LaTeX stops at a bare `&`'
doubt comment 'note = {9% of all},' 'write `\%`: LaTeX takes the rest of the line after a bare `%` for a comment'
doubt address 'note = {see http://a.org/b_c},' 'put the address into `\url{..}`: LaTeX stops at its `_`'
doubt backslash 'url = {http://a.org/b\\_c},' 'write `_` in the place of `\_`: an address has no backslash, and `\url` prints it'
doubt year 'year = {1999, to appear},' 'as in `year = {1999}`, and the words in `note`: the label ends with the year'"'"'s last two letters, `ar`'
doubt letter_of_latin1 'title = {Gr\xfcn},' 'save d.bib as UTF-8: its byte FC isn'"'"'t UTF-8'
doubt address_not_read 'doi = {10.1/x},' 'd.bib:3:  doi = {10.1/x}' 'this style never prints `doi`'
doubt nothing 'title = {$a_1$ \\& \\url{b_c}}, url = {http://a_b&c%d}, year = {(1999)}, note = {gr\xc3\xbcn}' 'Ended: finished, warnings 0, errors 0'

begin doubt_of_a_command_in_a_title
write_author_style
sed -i 's/FUNCTION {misc} {/FUNCTION {misc} {title "t" change.case$ pop$ /' s.bst
cite k,l
printf '@misc{k, author = {A. B}, title = {On \\TeX}}\n@misc{l, author = {A. B}, title = {On {\\TeX}}}\n' >d.bib
run_search -explain job
wants_words "$folder/stdout" 'put `\TeX` into braces, as `{\TeX}`: this style makes `\tex` of it'
! grep -q 'd.bib:2' "$folder/stdout" || complaints+=("what is right is shown: $(cat "$folder/stdout")")
end

begin doubts_of_names
write_author_style
printf '%s\n' '\citation{k,l}' '\bibdata{d}' '\bibstyle{s}' >job.aux
printf '%s\n' '@misc{k, author = {Ann Lee and Sammy Davis, Jr.}}' '@misc{l, author = {Lee A and Ray BC}}' >d.bib
run_search -explain job
wants_words "$folder/stdout" 'write `Davis, Jr., Sammy`, as in `von Last, Jr, First`: `Jr.` stands in the place of the first name'
wants_words "$folder/stdout" 'write `Lee, A.` and so on, with a comma: the last word, here `A`, is taken as the last name'
end

# a job whose parts are jobs of their own, and files in a folder below
begin mistake_each_included
write_author_style
for part in one two; do
    printf '\\citation{k}\n\\bibstyle{s}\n\\bibdata{d}\n' >$part.aux
done
printf '\\@input{one.aux}\n\\@input{two.aux}\n' >job.aux
echo '@misc{k, author = {A. B}}' >d.bib
run_search -explain -terse job
wants_words "$folder/stdout" 'run `bibtex-search` on each of `one`, `two`'
end

begin mistake_in_a_folder_below
write_author_style
mkdir bib build
printf '%s\n' '\citation{k}' '\bibdata{works}' '\bibstyle{s}' >job.aux
echo '@misc{k, author = {A. B}}' >bib/works.bib
run_search -explain -terse job
wants_words "$folder/stdout" 'write `\bibliography{bib/works}`'
mv job.aux build
run_search job
wants_words "$folder/stderr" 'is it `build/job`?'
rm build/job.aux
: >job.tex
run_search job
wants_words "$folder/stderr" 'run LaTeX on job.tex first'
end
