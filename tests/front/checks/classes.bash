# Documents of more classes and packages, as contrib/README.md lists them: of each list that LaTeX asks for bibtex-search makes the original's, with its status.

# write_works: a database with a parent, a name with a Jr, an accent, a string and a month; and two chapters.
write_works() {
    printf '%s\n' '@string{press = "A Press"}' \
        '@book{book, author = {Ann Lee}, title = {The {\TeX}book}, publisher = press, address = {Here}, year = 1984}' \
        '@article{paper, author = {Bo Ray and others}, title = {A Statement Considered}, journal = {A Journal}, volume = 11, pages = {147-148}, month = mar, year = 1968}' \
        '@inproceedings{talk, author = {Cy van der Berg and M{\"u}ller, Jr, Hans}, title = {A Talk}, crossref = {conf}, pages = {1--2}}' \
        '@inproceedings{other, author = {Di Fu}, title = {Another Talk}, crossref = {conf}}' \
        '@proceedings{conf, title = {A Conference}, booktitle = {A Conference}, editor = {Ed Itor}, year = 2001}' >works.bib
    printf '%s\n' '\chapter{One}\cite{book}\bibliographystyle{plain}\bibliography{works}' >one.tex
    printf '%s\n' '\chapter{Two}\cite{talk,paper}\bibliographystyle{acm}\bibliography{works}' >two.tex
}

# compare_lists: LaTeX reads paper.tex, and each list that it asks for is the original's.
compare_lists() {
    local top list lists=0 wanted
    timeout 120 pdflatex -interaction=batchmode paper </dev/null >/dev/null 2>&1 || true
    for top in $(grep -l '^\\bibdata' ./*.aux); do
        list=${top%.aux}.bbl
        wanted=0
        bibtex "$top" >/dev/null || wanted=$?
        mv "$list" original.bbl
        run_search "$top"
        wants_status "$wanted"
        cmp -s original.bbl "$list" || complaints+=("$list is another than the original's")
        [ ! -s "$list" ] || lists=$((lists + 1))
    done
    [ "$lists" -gt 0 ] || complaints+=('there is no list')
}

# same_lists FILE PREAMBLE [BODY]: a document with this preamble, which needs this file of TeX; BODY stands for citations of all and a list of STYLE.
same_lists() {
    if [ -z "$(kpsewhich "$1")" ]; then
        echo "left out: a document (without $1)"
        return
    fi
    begin "class_or_package_${1%.*}"
    write_works
    printf '%s\n' "$2" '\begin{document}' "${3:-\\cite{book,paper,talk,other\}\\bibliographystyle{${style:-plain}\}\\bibliography{works\}}" '\end{document}' >paper.tex
    compare_lists
    end
}

if has pdflatex && has kpsewhich && has bibtex; then
    cited='\cite{book,paper,talk,other}\bibliography{works}'
    same_lists revtex4-1.cls '\documentclass[aps,prl]{revtex4-1}' "\\title{T}\\author{A}\\maketitle$cited"
    style=elsarticle-num same_lists elsarticle.cls '\documentclass{elsarticle}'
    same_lists acmart.cls '\documentclass{acmart}' "\\title{T}\\author{A}\\maketitle\\bibliographystyle{ACM-Reference-Format}$cited"
    same_lists memoir.cls '\documentclass{memoir}\usepackage{chapterbib}' '\include{one}\include{two}'
    same_lists bibtopic.sty '\documentclass{article}\usepackage{bibtopic}' '\bibliographystyle{plain}\begin{btSect}{works}\btPrintAll\end{btSect}'
    same_lists biblatex.sty '\documentclass{article}\usepackage[backend=bibtex,refsection=section]{biblatex}\addbibresource{works.bib}' \
        '\section{A}\cite{book}\printbibliography\section{B}\cite{talk}\printbibliography'
    style=apacite same_lists apacite.sty '\documentclass{article}\usepackage{apacite}'
    style=jurabib same_lists jurabib.sty '\documentclass{article}\usepackage{jurabib}'
    style=amsplain same_lists amsart.cls '\documentclass{amsart}'
    same_lists amsrefs.sty '\documentclass{article}\usepackage{amsrefs}' "$cited"
    same_lists beamer.cls '\documentclass{beamer}' "\\begin{frame}\\bibliographystyle{plain}$cited\\end{frame}"
    same_lists achemso.cls '\documentclass{achemso}\author{A}\title{T}\email{a@b.c}\affiliation{X}' "$cited"
    style=agsm same_lists harvard.sty '\documentclass{article}\usepackage{harvard}'
    style=splncs04 same_lists llncs.cls '\documentclass{llncs}'
    style=babplain same_lists babelbib.sty '\documentclass{article}\usepackage{babelbib}'
    style=plainurl same_lists cite.sty '\documentclass{article}\usepackage{cite}\usepackage{hyperref}'
else
    echo 'left out: documents of more classes and packages (without pdflatex, kpsewhich or the original bibtex)'
fi
