# latexmk makes with bibtex-search the same list as with the original, and ends the same way.

# document CITED..: paper.tex cites these, and doc/refs.bib has them.
document() {
    mkdir document document/refs
    {
        echo '\documentclass{article}\begin{document}Text.'
        printf '\\cite{%s}\n' "$@"
        echo '\bibliographystyle{plain}\bibliography{refs/works,more}\end{document}'
    } >document/paper.tex
    printf '@book{%s, author = {Ann Lee}, title = {A Title}, publisher = {House}, year = 1999}\n' one two >document/refs/works.bib
    printf '@misc{three, author = {Bo Ray}, title = {Another}}\n' >document/more.bib
}

# document_with_chapter CITED..: the same, with a chapter in a folder of its own, which cites three.
document_with_chapter() {
    document "$@"
    mkdir document/chapters
    echo 'More.\cite{three}' >document/chapters/first.tex
    sed -i 's,\\bibliographystyle,\\include{chapters/first}&,' document/paper.tex
}

# make_list PROGRAM FOLDER WORD..: a copy of the document is made by latexmk with this program under the name of the original.
make_list() {
    mkdir "$2" "$2/bin"
    cp -r document/. "$2"
    ln -s "$1" "$2/bin/bibtex"
    (cd "$2" && PATH=$PWD/bin:$PATH timeout 300 latexmk -pdf -interaction=nonstopmode "${@:3}" paper </dev/null >printed 2>&1)
}

# same_as_original BBL WORD..: with these words of latexmk the list and the exit status are the original's.
same_as_original() {
    local wanted=0 found=0
    make_list "$original" original "${@:2}" || wanted=$?
    make_list "$search" ours "${@:2}" || found=$?
    [ "$wanted" -eq "$found" ] || complaints+=("latexmk ends with $found, and with the original with $wanted")
    cmp -s "original/$1" "ours/$1" || complaints+=("$1 is another than the original's")
    [ -n "$(find ours -name paper.pdf)" ] || complaints+=('there is no .pdf')
    wants_clean
}

original=$(command -v bibtex) || true
if has latexmk && has pdflatex && [ -n "$original" ]; then
    begin latexmk_plain
    document one three
    same_as_original paper.bbl
    end

    begin latexmk_silent
    document one
    same_as_original paper.bbl -silent
    end

    begin latexmk_outdir
    document two one
    same_as_original out/paper.bbl -outdir=out
    end

    begin latexmk_auxdir_in_place
    document two one
    same_as_original out/paper.bbl -outdir=out -nobibtexfudge
    end

    begin latexmk_outdir_with_chapters
    document_with_chapter two
    same_as_original out/paper.bbl -outdir=out
    grep -q '^\\bibitem{three}' ours/out/paper.bbl || complaints+=('what the chapter cites is not in the list')
    end

    begin latexmk_auxdir_with_chapters
    document_with_chapter two
    same_as_original aux/paper.bbl -auxdir=aux
    grep -q '^\\bibitem{three}' ours/aux/paper.bbl || complaints+=('what the chapter cites is not in the list')
    end

    begin latexmk_auxdir_with_a_space_and_chapters
    document_with_chapter two
    same_as_original 'aux dir/paper.bbl' '-auxdir=aux dir'
    grep -q '^\\bibitem{three}' 'ours/aux dir/paper.bbl' || complaints+=('what the chapter cites is not in the list')
    end

    begin latexmk_auxdir_in_place_with_chapters
    document_with_chapter two
    same_as_original out/paper.bbl -outdir=out -nobibtexfudge
    grep -q '^\\bibitem{three}' ours/out/paper.bbl || complaints+=('what the chapter cites is not in the list')
    end

    begin latexmk_warnings
    document one nowhere
    same_as_original paper.bbl
    end

    begin latexmk_no_citations
    document
    sed -i '/cite/d' document/paper.tex
    same_as_original paper.bbl
    end

    begin latexmk_error
    document one
    echo '@misc{one, title = {Repeated}}' >>document/refs/works.bib
    same_as_original paper.bbl
    end

    begin latexmk_own_command
    document one
    mkdir ours
    cp -r document/. ours
    printf '$bibtex = "%s %%O %%S";\n' "$search" >ours/latexmkrc
    (cd ours && latexmk -pdf -silent paper </dev/null >printed 2>&1) || complaints+=('latexmk fails')
    grep -q '^\\bibitem{one}' ours/paper.bbl || complaints+=('the list has no entry')
    end
else
    echo 'left out: latexmk (without latexmk, pdflatex or the original bibtex)'
fi
