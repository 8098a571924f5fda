# TeX lets a document call bibtex, since bibtex honours openout_any and openin_any. So does bibtex-search: it asks TeX's own library of each name that it reads or writes.

mkdir "$room/fake"
: >"$room/fake/texmf.cnf"
gcc -O2 -Wall -Werror -shared -fPIC -o "$room/fake/libkpathsea.so.6" "$here/fake_kpathsea.c"

# run_fake WORD..: bibtex-search with a library of our own in the place of TeX's.
run_fake() {
    TEXMFCNF=$room/fake libraries=$room/fake run_search "$@"
}

# victim: a job above the present folder, with an old list.
victim() {
    mkdir victim here
    cp job.aux d.bib s.bst victim
    cp d.bib s.bst here
    echo 'old list' >victim/job.bbl
    cd here
}

# wants_victim: its list is the old one, and it has no log.
wants_victim() {
    wants_text "$folder/work/victim/job.bbl" $'old list\n'
    [ ! -e "$folder/work/victim/job.blg" ] || complaints+=('there is a log')
    wants_clean
}

for job in ../victim/job ./../victim/job ABSOLUTE; do
    begin "openout_refused_$((passed + failed))"
    victim
    FAKE_OUT=victim openout_any=p run_fake "${job/ABSOLUTE/$folder/work/victim/job}"
    wants_status 1
    wants_error_like 'Not writing to .*job\.b[bl][lg] \(openout_any = p\)'
    wants_victim
    end
done

# One of the two outputs may not be written: neither is.
for output in bbl blg; do
    begin "openout_of_the_$output"
    leave_old
    FAKE_OUT=job.$output openout_any=p run_fake job
    wants_status 1
    wants_error_with "Not writing to job.$output (openout_any = p)."
    wants_old
    end
done

begin openout_allowed
victim
FAKE_OUT=nowhere run_fake ../victim/job
wants_status 0
wants_text ../victim/job.bbl $'a\n'
end

begin openin_of_the_job
leave_old
FAKE_IN=job.aux openin_any=p run_fake job
wants_status 3
wants_error_with 'Not reading from job.aux (openin_any = p).'
wants_old
end

begin openin_of_each_file
mkdir hidden
mv d.bib s.bst hidden
printf '\\citation{k}\n' >hidden/one.aux
printf '\\citation{k}\n\\@input{hidden/one.aux}\n\\bibdata{hidden/d}\n\\bibstyle{hidden/s}\n' >job.aux
FAKE_IN=hidden/d openin_any=p run_fake job
wants_error_with 'Not reading from hidden/d.bib (openin_any = p).'
wants_status 2
FAKE_IN=hidden openin_any=p run_fake job
wants_status 2
for name in hidden/one.aux hidden/d.bib hidden/s.bst; do
    wants_error_with "Not reading from $name (openin_any = p)."
done
wants_words job.blg "I couldn't open auxiliary file hidden/one.aux"
run_fake job
wants_status 0
end

# Styles and databases are found in the tree alone; the .aux file and what it includes aren't looked for there.
begin tree_of_styles
mkdir tree
mv d.bib s.bst tree
FAKE_TREE=$PWD/tree run_fake job
wants_first job
mv job.aux tree
FAKE_TREE=$PWD/tree run_fake job
wants_status 3
end

# A name is asked for once, however often it stands in the job.
begin names_are_asked_for_once
{
    printf '\\citation{k}\n\\bibstyle{s}\n\\bibdata{d,nosuch,%s}\n' "$(seq -s , 40)"
    printf '\\bibdata{d}\n%.0s' {1..500}
} >job.aux
FAKE_CALLS=$PWD/calls run_fake job
wants_status 2
[ -z "$(sort calls | uniq -d)" ] || complaints+=("asked for more than once: $(sort calls | uniq -d)")
end

# A variable keeps as many bytes as TeX says, where no option says otherwise, and where the program can have that limit.
# keeps_as_many ENTRY GLOBAL SIZES WORD..: a variable of an entry keeps ENTRY bytes and a global one GLOBAL, where TeX says SIZES and the words are these.
keeps_as_many() {
    printf '%s\n' 'ENTRY {}{}{} FUNCTION {misc} {} READ' 'FUNCTION {f} {entry.max$ int.to.str$ write$ newline$ global.max$ int.to.str$ write$ newline$} EXECUTE {f}' >s.bst
    ent_str_size=${3% *} glob_str_size=${3#* } run_fake "${@:4}" job
    wants_status 0
    wants_text job.bbl "$1"$'\n'"$2"$'\n'
}

begin limits_of_a_tex
keeps_as_many 7 9 '7 9'
keeps_as_many 3 9 '7 9' -entry-max=3
keeps_as_many 7 4 '7 9' -global-max=4
keeps_as_many 1000000 9 '1000000 9'
end

# What TeX says and can't be is not taken.
begin limits_that_cannot_be
for sizes in '0 0' '1000001 1000001' 'x y' '-1 -1' ' ' '$a $b'; do
    keeps_as_many 500 200000 "$sizes"
done
end

# A library that isn't TeX's is as none.
begin library_without_the_calls
mkdir other
printf 'int nothing;\n' >nothing.c
gcc -shared -fPIC -o other/libkpathsea.so.6 nothing.c
libraries=$PWD/other run_search job
wants_first job
end

# by_search CHOICE NAME STATUS: bibtex-search says of an output with this name whether it may be written.
by_search() {
    by_run run_search "$@"
}

by_kpsewhich() {
    local way found
    for way in in out; do
        found=0
        env TEXMFOUTPUT="$PWD/allowed" "open${way}_any=$1" kpsewhich -progname=bibtex "-safe-$way-name=$2" >/dev/null 2>&1 || found=1
        [ "$3" -eq "$found" ] || complaints+=("$2 with open${way}_any = $1: by kpsewhich $found, and not $3")
    done
}

if has kpsewhich; then
    begin openout_rules
    cp job.aux "$folder"
    mkdir -p inner allowed inner/a/.a allowedto
    cd inner
    each_rule by_search
    end

    begin openout_rules_of_tex_live
    each_rule by_kpsewhich
    end

    begin openout_of_tex_live
    mkdir victim allowed
    cp job.aux victim
    cp job.aux allowed
    cd victim
    run_search ../job
    wants_status 1
    openout_any=r run_search ../job
    wants_status 2
    cd ..
    TEXMFOUTPUT=$PWD/allowed run_search "$PWD/allowed/job"
    wants_first allowed/job
    run_search "$PWD/allowed/job"
    wants_status 1
    end

    begin openin_of_tex_live
    mkdir inner
    mv job.aux inner
    cp inner/job.aux hidden.aux
    sed -i 's,{d},{../d},; s,{s},{../s},' inner/job.aux
    cd inner
    openin_any=p run_search job
    wants_status 2
    for name in ../d.bib ../s.bst; do
        wants_error_with "Not reading from $name (openin_any = p)."
    done
    end
else
    echo 'left out: the rules of TeX Live for names (without kpsewhich)'
fi

if has pdflatex; then
    # called FOLDER JOB: a document in this folder calls bibtex-search under the name of bibtex, as TeX's restricted shell escape lets it.
    called() {
        mkdir -p bin
        ln -sf "$search" bin/bibtex
        printf '%s\n' '\documentclass{article}\begin{document}x\immediate\write18{bibtex '"$2"'}\end{document}' >"$1/document.tex"
        (cd "$1" && PATH=$folder/work/bin:$PATH pdflatex -interaction=nonstopmode document </dev/null >printed 2>&1)
        grep -q 'runsystem(bibtex .*executed safely' "$1/document.log" || complaints+=("the document called nothing: $(grep runsystem "$1/document.log")")
    }

    begin shell_escape_above
    mkdir victim here
    cp job.aux d.bib s.bst victim
    cp d.bib s.bst here
    echo 'old list' >victim/paper.bbl
    mv victim/job.aux victim/paper.aux
    called here ../victim/paper
    wants_text victim/paper.bbl $'old list\n'
    [ ! -e victim/paper.blg ] || complaints+=('there is a log')
    end

    begin shell_escape_beside
    called . job
    wants_text job.bbl $'a\n'
    end
else
    echo 'left out: a document that calls bibtex-search (without pdflatex)'
fi
