# Documents of several classes and packages: of each list that LaTeX asks for bibtex-search makes the original's.

# write_works: a database with a parent, a name with a Jr, an accent, a string and a month.
write_works() {
    printf '%s\n' '@string{press = "A Press"}' \
        '@book{book, author = {Ann Lee}, title = {The {\TeX}book}, publisher = press, year = 1984}' \
        '@article{paper, author = {Bo Ray and others}, title = {A Statement Considered}, journal = {A Journal}, volume = 11, pages = {147-148}, month = mar, year = 1968}' \
        '@inproceedings{talk, author = {Cy van der Berg and M{\"u}ller, Jr, Hans}, title = {A Talk}, crossref = {conf}, pages = {1--2}}' \
        '@inproceedings{other, author = {Di Fu}, title = {Another Talk}, crossref = {conf}}' \
        '@proceedings{conf, title = {A Conference}, booktitle = {A Conference}, editor = {Ed Itor}, year = 2001}' >works.bib
}

# same_lists FILE LINE..: a document of these lines, which needs this file of TeX, gives the original's lists.
same_lists() {
    local top list lists
    if [ -z "$(kpsewhich "$1")" ]; then
        echo "left out: a document (without $1)"
        return
    fi
    begin "document_with_${1%.*}"
    write_works
    printf '%s\n' "${@:2}" >paper.tex
    [ "$1" != chapterbib.sty ] || write_chapters
    timeout 120 pdflatex -interaction=batchmode paper </dev/null >/dev/null 2>&1 || true
    lists=0
    for top in $(grep -l '^\\bibdata' ./*.aux); do
        list=${top%.aux}.bbl
        # (its status is not 0 where it has messages)
        bibtex "$top" >/dev/null || true
        mv "$list" original.bbl
        run_search "$top"
        wants_status 0
        wants_clean
        cmp -s original.bbl "$list" || complaints+=("$list is another than the original's")
        ! [ -s "$list" ] || lists=$((lists + 1))
    done
    [ "$lists" -gt 0 ] || complaints+=('there is no list')
    end
}

# write_chapters: two chapters, each with a list of its own.
write_chapters() {
    printf '%s\n' '\chapter{One}\cite{book}\bibliographystyle{plain}\bibliography{works}' >one.tex
    printf '%s\n' '\chapter{Two}\cite{talk,paper}\bibliographystyle{acm}\bibliography{works}' >two.tex
}

if has pdflatex && has kpsewhich && has bibtex; then
    same_lists natbib.sty '\documentclass{article}\usepackage{natbib}' \
        '\begin{document}\citet{book}\citep[p.~1]{paper}\citep{talk,other}\bibliographystyle{plainnat}\bibliography{works}\end{document}'
    same_lists revtex4-2.cls '\documentclass[aps,prl]{revtex4-2}' \
        '\begin{document}\title{T}\author{A}\maketitle\cite{book,paper,talk,other}\bibliography{works}\end{document}'
    same_lists multibib.sty '\documentclass{article}\usepackage{multibib}\newcites{bk}{Books}' \
        '\begin{document}\cite{paper,talk}\citebk{book}\bibliographystyle{alpha}\bibliography{works}' \
        '\bibliographystylebk{abbrv}\bibliographybk{works}\end{document}'
    same_lists bibunits.sty '\documentclass{article}\usepackage{bibunits}' \
        '\begin{document}\begin{bibunit}[plain]\cite{paper}\putbib[works]\end{bibunit}' \
        '\begin{bibunit}[unsrt]\cite{talk,other}\putbib[works]\end{bibunit}\end{document}'
    same_lists chapterbib.sty '\documentclass{report}\usepackage{chapterbib}' '\begin{document}\include{one}\include{two}\end{document}'
    same_lists biblatex.sty '\documentclass{article}\usepackage[backend=bibtex]{biblatex}\addbibresource{works.bib}' \
        '\begin{document}\cite{book,paper,talk,other}\printbibliography\end{document}'
    same_lists IEEEtran.cls '\documentclass{IEEEtran}' \
        '\begin{document}\cite{talk}\nocite{*}\bibliographystyle{IEEEtran}\bibliography{works}\end{document}'
    same_lists apalike.sty '\documentclass{article}\usepackage{apalike}' \
        '\begin{document}\cite{book,paper,talk,other}\bibliographystyle{apalike}\bibliography{works}\end{document}'
else
    echo 'left out: documents of several packages (without pdflatex, kpsewhich or the original bibtex)'
fi
