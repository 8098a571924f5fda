# Build tools and editors call bibtex-search in the place of the original, and do the same: exit status, list, and what they report.

# write_paper: paper.tex with two works. write_faulty_paper: the same, with a mistake in the database and a work that isn't there.
write_paper() {
    mkdir -p document
    printf '%s\n' '\documentclass{article}\begin{document}Text \cite{one}, \cite{three}.' '\bibliographystyle{plain}\bibliography{works}\end{document}' >document/paper.tex
    printf '%s\n' '@book{one, author = {Ann Lee}, title = {A Title}, publisher = {House}, year = 1999}' '@misc{three, author = {Bo Ray}, title = {Another}}' >document/works.bib
}

write_faulty_paper() {
    write_paper
    sed -i 's/one}, /one,nowhere}, /' document/paper.tex
    printf '%s\n' '@misc{two, title 1}' '@misc{one, title = {Repeated}}' >>document/works.bib
}

# recorded PROGRAM NAME: NAME.bin/bibtex runs the program; its exit statuses go to NAME.runs, and its lists to NAME.lists.
recorded() {
    mkdir -p "$2.bin"
    cat >"$2.bin/bibtex" <<END_OF_SCRIPT
#!/bin/sh
'$1' "\$@"
status=\$?
echo "\$status" >>'$PWD/$2.runs'
cat ./*.bbl >>'$PWD/$2.lists' 2>/dev/null
exit \$status
END_OF_SCRIPT
    chmod +x "$2.bin/bibtex"
}

# beside COMMAND..: runs a tool in two copies of the document, with the original and with bibtex-search as bibtex: its status is the same, and so are the runs of bibtex, their
# statuses and their lists. What it prints is in original.printed and ours.printed.
beside() {
    local name wanted found
    recorded "$(command -v bibtex)" original
    recorded "$search" ours
    for name in original ours; do
        cp -r document "$name"
        status=0
        (cd "$name" && HOME=$room/home PATH=$folder/work/$name.bin:$PATH timeout -k 5 240 "$@") </dev/null >"$name.printed" 2>&1 || status=$?
        [ $name = original ] && wanted=$status || found=$status
    done
    [ "$wanted" -eq "$found" ] || complaints+=("$1 ends with $found, and with the original with $wanted: $(tail -n 5 ours.printed)")
    cmp -s original.runs ours.runs || complaints+=("bibtex ended with $(tr '\n' ' ' <ours.runs), and the original with $(tr '\n' ' ' <original.runs)")
    [ -s ours.lists ] && cmp -s original.lists ours.lists || complaints+=('a list is another than the original'"'"'s')
    wants_clean
}

# places FILE: the files and lines that a tool reports.
places() {
    grep -oE '(works\.bib|paper\.(aux|tex)):[0-9]+' "$1" | sort -u
}

mkdir -p "$room/home"

if has pdflatex && has bibtex; then
    for kind in paper faulty_paper; do
        if there_is rubber "rubber"; then
            begin "rubber_$kind"
            write_$kind
            beside rubber --pdf paper
            [ "$(places original.printed)" = "$(places ours.printed)" ] || complaints+=("rubber reports $(places ours.printed | tr '\n' ' '), and with the original $(places original.printed | tr '\n' ' ')")
            end
        fi

        if there_is latexmk latexmk; then
            begin "latexmk_of_a_$kind"
            write_$kind
            beside latexmk -pdf -interaction=nonstopmode paper
            for name in original ours; do
                grep -E '^(Latexmk: (Summary|Errors|====)|  (bibtex|Bibtex|Missing|Citation))' $name.printed >$name.said || true
            done
            cmp -s original.said ours.said || complaints+=("latexmk reports $(cat ours.said), and with the original $(cat original.said)")
            end
        fi

        if there_is arara arara && there_is java arara; then
            begin "arara_$kind"
            write_$kind
            sed -i '1i % arara: pdflatex\n% arara: bibtex\n% arara: pdflatex' document/paper.tex
            beside arara paper
            end
        fi

        if there_is texi2dvi texi2dvi; then
            begin "texi2dvi_$kind"
            write_$kind
            beside texi2dvi --pdf --batch paper.tex
            end
        fi

        if there_is emacs AUCTeX && emacs --batch --eval '(require (quote tex-site))' >/dev/null 2>&1; then
            begin "auctex_$kind"
            write_$kind
            (cd document && pdflatex -interaction=batchmode paper </dev/null >/dev/null 2>&1) || true
            beside emacs --batch --eval '(progn
                (require (quote tex-site)) (require (quote latex)) (find-file "paper.tex") (latex-mode) (setq TeX-show-compilation nil TeX-process-asynchronous nil)
                (TeX-command "BibTeX" (quote TeX-master-file))
                (with-current-buffer (TeX-process-buffer-name (expand-file-name "paper")) (princ (buffer-string)))
                (princ (current-message)))'
            for name in original ours; do
                grep -oE '\(There (was|were) [0-9]+ (warning|error message)s?\)|exited.*code [0-9]+' $name.printed >$name.said || true
            done
            cmp -s original.said ours.said || complaints+=("AUCTeX's buffer has $(cat ours.said), and with the original $(cat original.said)")
            end
        fi
    done

    if there_is emacs AUCTeX && emacs --batch --eval '(require (quote tex-site))' >/dev/null 2>&1; then
        # The lines of contrib/README.md, with the command that AUCTeX 12 has, and with that of AUCTeX 13, whose file is in another folder.
        for command in 'bibtex %s' 'bibtex %(O?aux)'; do
            begin "auctex_by_the_lines_for_${command//[^a-z0-9]/_}"
            write_paper
            mkdir -p document/build bin
            ln -sf "$search" bin/bibtex-search
            awk "/^    \\(with-eval-after-load 'tex/ { on = 1 } on && !NF { exit } on" "$sources/contrib/README.md" >lines.el
            (cd document && pdflatex -interaction=batchmode paper </dev/null >/dev/null 2>&1) || true
            case $command in *aux*) (cd document && mv paper.aux build/) ;; esac
            (cd document && PATH=$PWD/../bin:$PATH emacs --batch --eval "(progn
                (require (quote tex-site)) (require (quote tex))
                (setcar (cdr (assoc \"BibTeX\" TeX-command-list)) \"$command\")
                (add-to-list (quote TeX-expand-list) (list \"%(O?aux)\" (lambda () \"build/paper.aux\")))
                (load (expand-file-name \"../lines.el\"))
                (require (quote latex)) (find-file \"paper.tex\") (latex-mode) (setq TeX-show-compilation nil TeX-process-asynchronous nil)
                (TeX-command \"BibTeX\" (quote TeX-master-file))
                (princ (nth 1 (assoc \"BibTeX\" TeX-command-list))))" >../said 2>&1 </dev/null) || true
            grep -qF "bibtex-search${command#bibtex}" said || complaints+=("the command is $(tail -n 3 said)")
            case $command in *aux*) file=document/build/paper ;; *) file=document/paper ;; esac
            grep -q '(proved)' "$file.blg" 2>/dev/null && [ -s "$file.bbl" ] || complaints+=("there is no list: $(tail -n 3 said)")
            end
        done
    fi

    if there_is lyx LyX; then
        begin lyx
        write_paper
        printf '%s\n' '#LyX 2.3 created this file. For more info see http://www.lyx.org/' '\lyxformat 544' '\begin_document' '\begin_header' '\textclass article' '\end_header' '' \
            '\begin_body' '' '\begin_layout Standard' 'Text' '\begin_inset CommandInset citation' 'LatexCommand cite' 'key "one,three"' 'literal "false"' '' '\end_inset' '' '' \
            '\end_layout' '' '\begin_layout Standard' '\begin_inset CommandInset bibtex' 'LatexCommand bibtex' 'btprint "btPrintCited"' 'bibfiles "works"' 'options "plain"' '' \
            '\end_inset' '' '' '\end_layout' '' '\end_body' '\end_document' >document/paper.lyx
        beside env QT_QPA_PLATFORM=offscreen lyx -batch -e pdf2 paper.lyx
        [ -f ours/paper.pdf ] && [ -f original/paper.pdf ] || complaints+=("there is no .pdf: $(tail -n 3 ours.printed)")
        end
    fi
else
    echo 'left out: build tools and editors (without pdflatex or the original bibtex)'
fi
