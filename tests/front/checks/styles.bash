# The styles of docs/STYLES.md: the checker calls them clean, and they write what the page says.

# style_of_page N: the N-th block of the page that begins with ENTRY.
style_of_page() {
    awk -v wanted="$1" '/^    ENTRY/ { n++; on = 1 } /^[^ ]/ { on = 0 } on && n == wanted { sub(/^    /, ""); print }' "$sources/docs/STYLES.md"
}

ln -sf "$search" "$room/bibtex-lint"

begin styles_of_the_page
style_of_page 1 >skeleton.bst
style_of_page 2 >small.bst
printf '\\citation{*}\n\\bibdata{d}\n\\bibstyle{small}\n' >job.aux
printf '@book{knuth, author = {Donald E. Knuth}, title = {The {\\TeX}book}, year = 1984}\n@misc{web, title = {A page}}\n' >d.bib
for style in skeleton small; do
    LD_LIBRARY_PATH=$libraries "$room/bibtex-lint" --line $style.bst >said || complaints+=("$style isn't clean")
    grep -q "^$style.bst: clean, .* hints 0$" said || complaints+=("of $style it is said: $(cat said)")
done
run_search job
wants_status 0
grep -qxF 'Donald~E. Knuth. The {\TeX}book. 1984.' job.bbl || complaints+=("the list is $(cat job.bbl)")
sed 's/small/skeleton/' job.aux >other.aux
run_search other
wants_status 0
wants_text other.bbl 'The {\TeX}book
A page
'
end

# Each function of the language stands in the page's table, with what the explanations say that it takes.
begin operands_of_the_page
sed -n '/^## What each function takes/,/^## Checking/p' "$sources/docs/STYLES.md" | grep '^| `' | sed 's/ *| */|/g; s/^|//' | cut -d '|' -f 1,2 >rows
[ "$(cut -d '|' -f 1 rows | tr ' ' '\n' | grep -c '`')" -eq "$(grep -c '^built_in_name ' "$sources/crates/btx_bst/specs/language/BuiltIns.antt")" ] ||
    complaints+=('the table has not all functions')
sed -n 's/^    ("\([^"]*\)", "\([A-Z'"'"'{} ]*\)"),$/\1|\2/p' "$sources/front/src/advice.rs" >operands
while IFS='|' read -r name takes; do
    grep -F "\`$name\`" rows | cut -d '|' -f 2 | grep -qE "^$(sed 's/[{}]/\\&/g' <<<"$takes")(:.*)?$" || complaints+=("the row of $name doesn't say $takes")
done <operands
[ "$(wc -l <operands)" -ge 29 ] || complaints+=('the explanations have fewer functions')
end
