# TeX's set-up is read from its own files where TeX's search library isn't installed, as with TeX Live's own installer.

# live_tree: a tree as TeX Live's installer makes it, with the job's style and database in it: live/2022/{bin,texmf-dist,texmf.cnf}, live/texmf-local.
live_tree() {
    local tree=live/2022/texmf-dist
    mkdir -p live/2022/bin/a-system $tree/web2c $tree/bibtex/{bst/base,bib/base} live/texmf-local
    printf '#!/bin/sh\n' >live/2022/bin/a-system/kpsewhich
    chmod +x live/2022/bin/a-system/kpsewhich
    mv s.bst $tree/bibtex/bst/base
    mv d.bib $tree/bibtex/bib/base
    cat >$tree/web2c/texmf.cnf <<'END'
% A set-up of the form of TeX Live's.
TEXMFROOT = $SELFAUTOPARENT
TEXMFDIST = $TEXMFROOT/texmf-dist
TEXMFLOCAL = $SELFAUTOGRANDPARENT/texmf-local
TEXMFHOME = ~/texmf
TEXMFAUXTREES = {}
TEXMF = {$TEXMFAUXTREES$TEXMFHOME,!!$TEXMFLOCAL,!!$TEXMFDIST}
TEXMFDBS = {!!$TEXMFLOCAL,\
!!$TEXMFDIST}
BIBINPUTS = .;$TEXMF/bibtex/bib//
BSTINPUTS.pbibtex = /nowhere
BSTINPUTS = .;$TEXMF/bibtex/{bst,csf}//
openin_any = a
openout_any = p % paranoid
ent_str_size = 7
glob_str_size = 9
END
    echo '% what this site changes' >live/2022/texmf.cnf
    list_files $tree
    touch live/texmf-local/a-file
    list_files live/texmf-local
}

# list_files FOLDER: its file database.
list_files() {
    (
        cd "$1"
        echo '% ls-R -- filename database for kpathsea; do not change this line.'
        LC_ALL=C ls -R ./
    ) >"$folder/database"
    mv "$folder/database" "$1/ls-R"
}

# run_live WORD..: runs bibtex-search beside the programs of that tree.
run_live() {
    PATH=$folder/work/live/2022/bin/a-system:$PATH run_by_set_up "$@"
}

begin set_up_of_a_tree
live_tree
run_live job
wants_first job
end

begin set_up_of_a_tree_by_a_link
live_tree
mkdir links
ln -s ../live/2022/bin/a-system/kpsewhich links/kpsewhich
PATH=$PWD/links:$PATH run_by_set_up job
wants_first job
end

begin set_up_by_its_folder
live_tree
mkdir away
mv live/2022/texmf-dist/web2c/texmf.cnf away
sed -i "s,\$SELFAUTOPARENT,$PWD/live/2022," away/texmf.cnf
libraries=$room/no_tex TEXMFCNF=$PWD/away run_search job
wants_first job
libraries=$room/no_tex TEXMFCNF=$PWD/nowhere: run_search job
wants_status 2
end

# What a site changes stands in a file of its own, which comes first.
begin set_up_of_a_site
live_tree
printf 'TEXMFHOME = ~/ours\nent_str_size = 3\n' >live/2022/texmf.cnf
mkdir -p home/ours/bibtex/{bst,bib}/deep/er
mv live/2022/texmf-dist/bibtex/bst/base/s.bst home/ours/bibtex/bst/deep/er
mv live/2022/texmf-dist/bibtex/bib/base/d.bib home/ours/bibtex/bib/deep
HOME=$PWD/home run_live job
wants_first job
end

# A tree that is searched by its database alone has the files that stand in it, and no others.
begin set_up_with_a_database
live_tree
cp live/2022/texmf-dist/bibtex/bst/base/s.bst live/2022/texmf-dist/bibtex/bst/base/t.bst
named d t
run_live job
wants_status 2
list_files live/2022/texmf-dist
run_live job
wants_status 0
rm live/2022/texmf-dist/bibtex/bst/base/t.bst
run_live job
wants_status 2
end

begin set_up_with_names_of_folders
live_tree
named base/d base/s
run_live job
wants_first job
end

begin set_up_with_paths
live_tree
mkdir -p styles/a/b refs
mv live/2022/texmf-dist/bibtex/bst/base/s.bst styles/a/b
cp live/2022/texmf-dist/bibtex/bib/base/d.bib refs/e.bib
printf '\\citation{k}\n\\bibdata{d,e}\n\\bibstyle{s}\n' >job.aux
for path in styles// styles//b 'styles/{x,a}/b' '$PLACE/a//' 'nowhere;styles//' ':styles//' 'styles//:' 'nowhere::styles//' './/' '//nowhere:styles//'; do
    BSTINPUTS=$path BIBINPUTS=refs: PLACE=styles run_live job
    grep -q '^Database file #2: e.bib' job.blg || complaints+=("with $path: $(cat job.blg)")
done
BSTINPUTS_bibtex=styles// BSTINPUTS=nowhere BIBINPUTS=:refs run_live job
grep -q '^Database file #2: e.bib' job.blg || complaints+=("for this program alone: $(cat job.blg)")
end

# Variables that stand for themselves end too.
begin set_up_with_a_circle
live_tree
BSTINPUTS='$BSTINPUTS:styles' BIBINPUTS='{$BIBINPUTS,$BIBINPUTS}:' run_live job
[ "$status" -eq 0 ] || [ "$status" -eq 2 ] || complaints+=("the exit status is $status")
end

begin set_up_with_limits
live_tree
printf '%s\n' 'ENTRY {}{}{} FUNCTION {misc} {} READ' 'FUNCTION {f} {entry.max$ int.to.str$ write$ newline$ global.max$ int.to.str$ write$ newline$} EXECUTE {f}' >s.bst
run_live job
wants_status 0
wants_text job.bbl $'7\n9\n'
end

# As many names as a job may have are looked for in the time of the databases' length, and each is found.
begin set_up_with_many_names
live_tree
for number in {1..300}; do
    echo "@misc{k$number, title = {T}}" >live/2022/texmf-dist/bibtex/bib/base/b$number.bib
done
list_files live/2022/texmf-dist
printf '\\citation{*}\n\\bibdata{d,%s}\n\\bibstyle{s}\n' "$(seq -f b%g -s , 300)" >job.aux
run_live job
wants_status 0
[ "$(grep -c '^Database file' job.blg)" -eq 301 ] || complaints+=("$(grep -c '^Database file' job.blg) databases were found")
end

# A tree is looked through once, however many names aren't there.
begin set_up_with_many_folders
live_tree
mkdir -p home/texmf/bibtex/bib/{1..30}/{1..30}
printf '\\citation{k}\n\\bibdata{d,%s}\n\\bibstyle{s}\n' "$(seq -f missing%g -s , 2000)" >job.aux
HOME=$PWD/home run_live -terse job
wants_status 2
wants_text job.bbl $'a\n'
[ "$(messages job.blg | wc -l)" -eq 2000 ] || complaints+=("the log has $(messages job.blg | wc -l) messages")
end

begin set_up_with_rules_for_names
live_tree
cp job.aux "$folder"
mkdir -p inner allowed inner/a/.a allowedto
cd inner
by_set_up() {
    by_run run_live "$@"
}
each_rule by_set_up
cd ..
openin_any=p run_live "$PWD/job"
wants_status 3
wants_error_like 'Not reading from .*job.aux \(openin_any = p\)'
TEXMFOUTPUT=$PWD/allowed
end

# The library may be there for other programs, without a TeX: then files are found as without it.
begin library_without_a_set_up
TEXMFCNF=$room/no_tex libraries= run_search job
wants_first job
end

if has kpsewhich; then
    for ending in bst bib; do
        begin "all_files_of_tex_live_by_its_set_up_$ending"
        files_of_tex_live "$ending" >wanted
        find_each "$ending" run_by_set_up <wanted
        end
    done

    begin set_up_of_a_home_of_tex_live
    keep_at_home
    HOME=$PWD/home run_by_set_up job
    wants_first job
    mv home/texmf ours
    TEXMFHOME=$PWD/ours run_by_set_up job
    wants_first job
    end

    # TeX's library, of a TeX that the system has, finds what another TeX has whose programs come first.
    begin library_beside_another_tree
    live_tree
    PATH=$PWD/live/2022/bin/a-system:$PATH run_search job
    wants_first job
    end
else
    echo 'left out: the files of TeX Live by its set-up (without kpsewhich)'
fi

# What the machine can't read of the set-up is said, and is no missing style.
gcc -O2 -Wall -Werror -shared -fPIC -o "$room/fail_front_open.so" "$sources/tests/fail_open.c" -ldl
begin database_that_cannot_be_read
live_tree
leave_old
FAIL_OPEN=ls-R FAIL_REASON=EIO LD_PRELOAD=$room/fail_front_open.so run_live job
wants_status 6
wants_error_like 'ls-R can.t be read: Input/output error'
wants_old
end

begin set_up_that_cannot_be_read
live_tree
leave_old
FAIL_OPEN=texmf.cnf FAIL_REASON=EIO LD_PRELOAD=$room/fail_front_open.so run_live job
wants_status 6
wants_error_like 'texmf.cnf can.t be read: Input/output error'
wants_old
end

begin folder_that_cannot_be_read
live_tree
sed -i 's/!!//g' live/2022/texmf-dist/web2c/texmf.cnf
rm live/2022/texmf-dist/ls-R live/texmf-local/ls-R
leave_old
FAIL_OPEN=base FAIL_REASON=EMFILE LD_PRELOAD=$room/fail_front_open.so run_live job
wants_first job
FAIL_OPEN=bst FAIL_REASON=EMFILE LD_PRELOAD=$room/fail_front_open.so run_live job
wants_status 6
wants_error_like 'bibtex/bst can.t be read: Too many open files'
end

# The present folder is the document's: what stands in it is no program of TeX's, and no set-up.
if has kpsewhich; then
    begin programs_of_the_present_folder
    mkdir below
    : >below/kpsewhich
    echo 'openout_any = a' >below/texmf.cnf
    cd below
    status=0
    env -i "$search" ../job </dev/null >"$folder/stdout" 2>"$folder/stderr" || status=$?
    cd ..
    wants_refusal 'Not writing to ../job.b'
    end
fi
