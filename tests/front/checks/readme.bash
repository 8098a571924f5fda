# README's example of the front end is what it prints of an author's mistake.

begin readme
sed -n '/^    \$ bibtex-search -explain paper$/,/^$/p' "$sources/README.md" | sed '1d; /^$/d; s/^    //' >wanted
[ -s wanted ] || complaints+=('README has no example')
printf '%s\n' '@article{dijkstra,' '  author  = {Edsger W. Dijkstra}' '  title = {Go To},' '  year  = {1968}' '}' >refs.bib
printf '%s\n' '\citation{dijkstra}' '\bibdata{refs}' '\bibstyle{s}' >paper.aux
sed -i 's/ENTRY *{ *title *}/ENTRY {author title year}/; s/FUNCTION {misc}/FUNCTION {article}/' s.bst
run_search -explain paper
wants_status 2
[[ $(cat "$folder/stdout") == *"$(cat wanted)"* ]] || complaints+=("it prints $(cat "$folder/stdout")")
end
