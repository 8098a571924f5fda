# Jobs with mistakes, which the checks and compare.py run. Each write_NAME writes its job into the present folder, over the files of the first example.

# All mistakes of an .aux file.
write_commands() {
    printf '%s\n' '\citation{k, j}' '\citation{k}' '\citation{K}' '\@input{nosuch.aux}' '\bibdata{d,e}' '\bibdata{f}' '\bibstyle{t}' >job.aux
}

# Mistakes of a style.
write_style() {
    printf '%s\n' 'ENTRY {title}{}{}' 'FUNCTION {misc} {title empty$ {#} {nosuch} if$}' '' 'FUNCTION {f' 'x' '' 'READ' 'EXECUTE {nosuch}' >s.bst
}

# Each kind of message on databases and entries, and an error of execution.
write_dirty() {
    printf '%s\n' '\citation{k,two,nosuch,child,bare}' '\bibdata{d}' '\bibstyle{s}' >job.aux
    printf '%s\n' 'ENTRY {title}{}{}' 'FUNCTION {misc} {title empty$ {"empty title in " cite$ * warning$} {} if$}' '' \
        'READ' 'ITERATE {call.type$}' 'EXECUTE {pop$} % ITERATE {pop$}' >s.bst
    printf '%s\n' '@misc{k, title = {A} # zz, title = {B}}' '@misc{j,' '  note 1}' '@misc{K, title = {C}}' '@odd{two, title = {D}, crossref = {p}}' \
        '@misc{child, crossref = {mid}}' '@misc{bare}' '@misc{mid, title = {E}, crossref = {k}}' >d.bib
}

# Some messages of each kind, with what explains them.
write_explained() {
    printf '%s\n' '\citation{k, j}' '\citation{two,nosuch,bare}' '\bibdata{d,e}' '\bibstyle{s}' >job.aux
    printf '%s\n' 'ENTRY {title}{}{}' 'FUNCTION {misc}' '{ title empty$ {"empty title in " cite$ * warning$} {title #1 + pop$} if$' '  nosuch }' '' \
        'READ' 'ITERATE {call.type$}' >s.bst
    printf '%s\n' '@misc{k, title = {A} # zz}' '@misc{j,' $'\tnöte 1}' '@misc{K, title = {C}}' '@misc{two, title = {D}, crossref = {p}}' \
        '@misc{bare}' >d.bib
}

# Nothing is cited.
write_empty() {
    printf '\\bibdata{d}\n\\bibstyle{s}\n' >job.aux
}

# A loop of the style makes a string without end.
write_limit() {
    printf 'ENTRY {title}{}{} FUNCTION {misc}{} READ FUNCTION {f}{"a" {#1} {duplicate$ *} while$} EXECUTE {f}\n' >s.bst
}

# An .aux file names 100,000 databases without a name.
write_many() {
    printf '\\citation{k}\n\\bibstyle{s}\n\\bibdata{d%s}\n' "$(head -c 100000 /dev/zero | tr '\0' ,)" >job.aux
}

# A style of usual shape: names, titles, years. It is whole.
write_mini() {
    cat >s.bst <<'END_OF_STYLE'
ENTRY {author title year note}{}{label}
INTEGERS {left}

INTEGERS {count}

STRINGS {names}

FUNCTION {not} {{#0} {#1} if$}
FUNCTION {field.or.warn} {duplicate$ empty$ {pop$ "empty field in " cite$ * warning$ ""} 'skip$ if$}
FUNCTION {one.name} {names swap$ "{ff~}{vv~}{ll}{, jj}" format.name$}
FUNCTION {all.names} {
  'names :=
  names num.names$ 'left :=
  #1 'count :=
  ""
  {count left > not}
  {
    count one.name *
    count left < {", " *} 'skip$ if$
    count #1 + 'count :=
  } while$
}
FUNCTION {misc} {
  "\bibitem{" cite$ * "}" * write$ newline$
  author empty$ {"" } {author all.names} if$ write$ ". " write$
  title field.or.warn write$ newline$
  year empty$ 'skip$ {year write$ newline$} if$
}
FUNCTION {default.type} {misc}
READ
FUNCTION {begin} {"\begin{thebibliography}{9}" write$ newline$}
EXECUTE {begin}
ITERATE {call.type$}
FUNCTION {end} {"\end{thebibliography}" write$ newline$}
EXECUTE {end}
END_OF_STYLE
    printf '%s\n' '\citation{k,two}' '\bibdata{d}' '\bibstyle{s}' >job.aux
    printf '%s\n' '@misc{k, author = {Ann Lee and Bo Ray and Cy Fu}, title = {A}, year = 1999}' '@misc{two, author = {Di Jo}, year = 2000}' >d.bib
}

# The same with one letter forgotten, so that its loop never ends: its name is the mistake that its log names first.
write_flood() {
    write_mini
    sed -i 's/^INTEGERS {count}/INTEGER {count}/' s.bst
}

# A body that isn't closed: the functions after it are its own.
write_unclosed() {
    write_mini
    sed -i '/^  year empty/{n;d}' s.bst
}

# The quote before an assignment is forgotten, operands are exchanged, and a field is asked for outside entries.
write_operands() {
    write_mini
    sed -i "s/^  names num.names\\$ 'left :=/  names num.names\$ left :=/; s/names swap\\$ \"/names \"/; s/^EXECUTE {end}/EXECUTE {end} EXECUTE {misc}/" s.bst
}
