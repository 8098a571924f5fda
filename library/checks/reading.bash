# What a database says, as records, in rooms of each size.

begin each_item_is_a_record
printf '%s\n' '@comment{x}' '@string{s = "A" # jan}' '@preamble{ {p} # s }' '@misc{k, title = {T  {U}} # s,' ' year=2000}' '@MISC(K)' '@book{b, x 1}' >d.bib
run "$tests/read" d.bib jan January
wants_quiet
wants_output 'comment 0-8:1 =
string 12-33:2 s=AJanuary
end 33-34:2 =
preamble 35-53:3 =pAJanuary
end 54-55:3 =
entry 56-63:4 misc=k
field 65-85:4 title=T {U}AJanuary
field 88-97:5 year=2000
end 97-98:5 =
entry 99-107:6 MISC=K)
wrong 108-108:7 =Error--I was expecting a , or a )--line 7 of file d.bib
entry 108-115:7 book=b
wrong 119-119:7 =Error--I was expecting an =--line 7 of file d.bib
'
end

begin no_record
: >d.bib
run "$tests/read" d.bib
wants_quiet
wants_output ''
printf 'no item\n' >d.bib
run "$tests/read" d.bib
wants_quiet
wants_output ''
end

begin bytes_of_any_kind
printf '@misc{\377\000, t = {\000\n}}@misc{k' >d.bib
run "$tests/read" d.bib
wants_quiet
[ "$(grep -ca . "$folder/stdout")" -eq 5 ] || complaints+=("$(cat -v "$folder/stdout")")
end

# The library of a job, in rooms of each size, and with each number of its files.

# library_files CITED..: a style and a database for a job that cites these keys.
library_files() {
    printf '%s\n' 'ENTRY{title year publisher}{}{}' 'FUNCTION{book}{}' 'FUNCTION{misc}{}' 'READ' 'FUNCTION{late}{}' >all.bst
    printf '%s\n' '@string{s = "A"}' '@misc{child, year = 1 # s, CrossRef = "PARENT", note = "unread", title = "  own  "}' '@late{other, title = {x}, year = ""}' '@unwanted{u, x = 1}' \
        '@book{Parent, title = {The parent}, publisher = {P}, crossref = "child"}' '@book{lonely, crossref = "nowhere"}' >d.bib
    printf '\\citation{%s}\n' "$@" >p.aux
    printf '%s\n' '\bibdata{d}' '\bibstyle{all}' >>p.aux
}

begin the_library_of_a_job
library_files Other child lonely missing
run "$tests/read_job" . p min_crossrefs=1
wants_quiet
wants_output 'entry =Other
field title=x
field year=
end =
entry misc=child
field crossref=Parent
field title=own
field year=1A
field publisher=P
end =
entry book=lonely
end =
entry book=Parent
field crossref=child
field title=The parent
field year=1A
field publisher=P
end =
'
run "$tests/read_job" . p min_crossrefs=2
wants_quiet
wants_output 'entry =Other
field title=x
field year=
end =
entry misc=child
field title=own
field year=1A
field publisher=P
end =
entry book=lonely
end =
'
end

begin every_entry_of_a_job
library_files lonely '*'
run "$tests/read_job" . p
wants_quiet
[ "$(grep '^entry' "$folder/stdout" | tr '\n' ,)" = 'entry book=lonely,entry misc=child,entry =other,entry =u,entry book=Parent,' ] || complaints+=("$(cat "$folder/stdout")")
end

begin jobs_without_a_library
library_files child
printf '%s\n' '\citation{child}' '\bibdata{d}' >p.aux
for job in p nothing; do
    run "$tests/read_job" . "$job"
    wants_quiet
    wants_output 'it ends before it has a library
'
done
library_files child
{ printf '@misc{child, title = {'; head -c 1000001 /dev/zero | tr '\0' x; printf '}}\n'; } >d.bib
run "$tests/read_job" . p
wants_quiet
wants_output 'it ends before it has a library
'
printf '%s\n' '\bibdata{d}' '\bibstyle{all}' >p.aux
run "$tests/read_job" . p
wants_quiet
wants_output ''
end
