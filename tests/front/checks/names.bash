# How jobs, databases and styles may be named, and where they are found.

begin same_folder
run_search job
wants_first job
wants_log job.blg "$first_log"
end

begin with_its_ending
run_search job.aux
wants_first job
end

begin another_folder
mkdir 'sub folder'
mv job.aux 'sub folder'
run_search 'sub folder/job'
wants_first 'sub folder/job'
end

begin absolute_job
mkdir elsewhere
mv job.aux elsewhere
openout_any=a run_search "$PWD/elsewhere/job"
wants_first elsewhere/job
end

begin job_above
mkdir inner
cp d.bib s.bst inner
cd inner
openout_any=a run_search ../job
wants_first ../job
end

# Any name of a job: with spaces, quotes, wildcards, in any encoding or none, and as long as the system takes.
names=('two words' $'two\nlines' -job '*' '$HOME' 'a"b' "a'b" '`b`' j.aux 'ü' $'\xff' $'a\x01b' $'\e[31m' $'\u202ejob' '~' '~root' '{a,b}' 'a,b' 'a%b' 'a\b' '#' '&' ';' '|' '(' 'a=b' '=' '!' '?' '[a]'
    $'\t' ' ' '.' '...' '.hidden' 'a:b' '-' "$(letters 251 n)")
for name in "${names[@]}"; do
    begin "job_$((passed + failed))"
    mv -- job.aux "./$name.aux"
    [ "${name:0:1}" != . ] || [ "$with_tex" = no ] || export openout_any=a
    run_search -- "$name.aux"
    wants_first "./$name"
    unset openout_any
    end
done

begin job_with_a_name_that_is_too_long
run_search "$(letters 300 n)"
wants_status 3
wants_error_like 'name too long'
wants_files d.bib job.aux s.bst
end

begin job_with_an_empty_name
run_search ''
[ "$status" -eq 1 ] || [ "$status" -eq 3 ] || complaints+=("the exit status is $status")
wants_error_with bibtex-search
wants_files d.bib job.aux s.bst
end

begin present_folder_of_any_name
mkdir -- $'-a b\n$HOME'
mv job.aux d.bib s.bst ./-a*
cd ./-a*
run_search job
wants_first job
run_plainly ./job
wants_first job
end

begin present_folder_that_is_no_text
mkdir $'\xff'
mv job.aux d.bib s.bst $'\xff'
cd $'\xff'
run_search job
wants_first job
end

for kind in ':' '$HOME' '~' '%' ' ' $'\n' "'"; do
    begin "temporary_folder_$((passed + failed))"
    mkdir "$kind"
    TMPDIR=$PWD/$kind run_search job
    wants_first job
    [ -z "$(ls -A "$kind")" ] || complaints+=("left over: $(ls -A "$kind")")
    end
done

# What `\bibdata` and `\bibstyle` may say, and the command that gets the files there.
begin names_above
mkdir inner
named ../d ../s
mv job.aux inner
cd inner
run_search job
wants_first job
end

begin absolute_names
mkdir away
mv d.bib s.bst away
named "$PWD/away/d" "$PWD/away/s.bst"
run_search job
wants_first job
end

begin names_in_folders
mkdir refs
mv d.bib s.bst refs
named refs/d ./refs/../refs/s
run_search job
wants_first job
end

for name in '-d' 'a{b' '#d' "a'b" 'a&b;c' '[d]' 'd.bst' $'\xff' $'\x01' $'\e[2J' '*' '?' '|d' 'd\' ; do
    begin "database_$((passed + failed))"
    mv -- d.bib "./$name.bib"
    mv -- s.bst "./$name.bst"
    printf '\\citation{k}\n\\bibdata{%s}\n\\bibstyle{%s}\n' "$name" "$name.bst" >job.aux
    run_search job
    wants_first job
    run_plainly job
    wants_first job
    end
done

begin name_that_climbs
named "$(printf '../%.0s' {1..30})$PWD/d" s
run_search job
wants_first job
end

begin two_names_of_one_place
mkdir -p there/sub
ln -s there/sub link
cp d.bib there/d.bib
echo '@misc{k, title = {Other}}' >>there/d.bib
named d,link/../d s
run_search job
wants_status 2
wants_text job.bbl $'a\n'
wants_words job.blg 'Database file #2: link/../d.bib'
end

begin includes
mkdir chapters
printf '\\@input{chapters/one.aux}\n\\bibstyle{s}\n' >job.aux
printf '\\citation{k}\n\\@input{chapters/two.aux}\n\\@input{job.aux}\n' >chapters/one.aux
printf '\\bibdata{d}\n' >chapters/two.aux
run_search job
wants_status 2
wants_text job.bbl $'a\n'
end

# An included file stands in the present folder, or else beside the top one; never beside the one that includes it.
# document_of_chapters: out/job.aux includes ch/one.aux, which cites k and includes ch/two.aux.
document_of_chapters() {
    mkdir -p out/ch out/ch/ch
    printf '\\@input{ch/one.aux}\n\\bibdata{d}\n\\bibstyle{s}\n' >out/job.aux
    printf '\\citation{k}\n\\@input{ch/two.aux}\n' >out/ch/one.aux
    rm job.aux
}

begin includes_beside_the_top
document_of_chapters
: >out/ch/two.aux
run_search out/job
wants_first out/job
wants_line out/job.blg 'A level-2 auxiliary file: ch/two.aux'
end

begin includes_of_the_present_folder_first
document_of_chapters
: >out/ch/two.aux
mkdir ch
: >ch/one.aux
run_search out/job
wants_status 2
wants_words out/job.blg 'I found no \citation commands'
end

begin includes_beside_an_included_one
document_of_chapters
: >out/ch/ch/two.aux
run_search out/job
wants_status 2
wants_words out/job.blg "I couldn't open auxiliary file ch/two.aux"
end

begin includes_that_are_deep
for number in {1..25}; do
    printf '\\@input{%s.aux}\n' "$((number + 1))" >"$number.aux"
done
run_search 1
wants_status 3
[ "$(grep -c '^A level-' 1.blg)" -eq 19 ] || complaints+=("$(grep -c '^A level-' 1.blg) levels were read, not 19")
end

begin database_that_is_a_folder
mkdir folder.bib
named folder s
run_search job
wants_status 2
wants_text job.bbl $'a\n'
wants_error_with 'folder.bib'
end

begin plain_folders
mkdir refs styles
mv d.bib refs
mv s.bst styles
BIBINPUTS=nowhere:refs BSTINPUTS=styles: run_plainly job
wants_first job
end

begin plain_present_folder
BIBINPUTS= BSTINPUTS=nowhere: run_plainly job
wants_first job
end

begin plain_folder_without_the_style
BSTINPUTS=nowhere run_plainly job
wants_status 2
wants_words job.blg "I couldn't open style file s.bst"
end

# No file has a name with a byte 0: it isn't found, and TeX's rules for names aren't blamed.
begin names_with_a_byte_0
printf '\\citation{k}\n\\@input{a\0b.aux}\n\\bibdata{d,d\0e}\n\\bibstyle{s}\n' >job.aux
run_search job
wants_status 2
grep -qa "couldn't open database file d.e.bib" job.blg || complaints+=("the log is $(cat -v job.blg)")
! grep -q openin_any "$folder/stderr" || complaints+=("it says $(cat "$folder/stderr")")
wants_text job.bbl $'a\n'
end

# One name a million times is one name, and one that is longer than any path is none.
begin names_again_and_again
{
    printf '\\citation{k}\n\\bibdata{d}\n\\bibstyle{s}\n\\bibdata{'
    head -c 2000000 < <(yes e, | tr -d '\n')
    printf 'e}\n\\bibstyle{%s}\n' "$(head -c 1000000 /dev/zero | tr '\0' n)"
} >job.aux
run_search job
wants_status 2
wants_text job.bbl $'a\n'
[ "$(messages job.blg | wc -l)" -eq 2 ] || complaints+=("the log has $(messages job.blg | wc -l) messages")
end

# An output that is a file of the job as well isn't written.
begin output_that_is_an_input
cp d.bib kept
ln -sf d.bib job.bbl
run_search job
wants_status 6
wants_error_with job.bbl
cmp -s d.bib kept || complaints+=('the database was written over')
end

begin outputs_that_are_one_file
echo 'old list' >job.bbl
ln -s job.bbl job.blg
run_search job
wants_status 6
wants_text job.bbl $'old list\n'
end

if has kpsewhich; then
    begin search_paths
    mkdir -p refs styles/deep/deeper
    mv d.bib refs
    mv s.bst styles/deep/deeper
    BIBINPUTS=nowhere:refs: BSTINPUTS=styles//: run_search job
    wants_first job
    end

    begin search_paths_of_a_home
    keep_at_home
    HOME=$PWD/home run_search job
    wants_first job
    end

    begin search_paths_with_variables
    mkdir 'in here'
    mv d.bib s.bst 'in here'
    PLACE='in here' BIBINPUTS='.:$PLACE:' BSTINPUTS='{.,$PLACE}:' run_search job
    wants_first job
    end

    begin names_with_variables
    mkdir place
    mv d.bib place
    named '$PLACE/d' s
    PLACE=$PWD/place run_search job
    wants_first job
    end

    # A variable keeps as many bytes as TeX Live says, where no option says otherwise.
    begin limits_of_tex
    printf '%s\n' 'ENTRY {}{}{} FUNCTION {misc} {} READ' 'FUNCTION {f} {entry.max$ int.to.str$ write$ newline$ global.max$ int.to.str$ write$ newline$} EXECUTE {f}' >s.bst
    run_search -entry-max=7 job
    wants_status 0
    wants_text job.bbl "7"$'\n'"$(kpsewhich -progname=bibtex -var-value=glob_str_size)"$'\n'
    glob_str_size=9 run_search job
    wants_text job.bbl "$(kpsewhich -progname=bibtex -var-value=ent_str_size)"$'\n'"9"$'\n'
    end

    # All styles and databases of TeX Live are found where kpsewhich finds them.
    for ending in bst bib; do
        begin "all_files_of_tex_live_$ending"
        files_of_tex_live "$ending" >wanted
        find_each "$ending" run_search <wanted
        end
    done
else
    echo 'left out: search paths and limits of TeX (without kpsewhich)'
fi
