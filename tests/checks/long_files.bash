# Files that are longer than any that is read, or have no end: at most one byte more than the greatest file is read of each.

# within KIB WORD..: runs the program with at most KIB KiB of memory.
within() {
    status=0
    (
        ulimit -v "$1"
        exec timeout 60 "$program" "${@:2}" </dev/null >"$folder/stdout" 2>"$folder/stderr"
    ) || status=$?
}

# is_too_long LOG: the run ends at the limit of a file, with this log, and no list.
is_too_long() {
    local log="$1Ended: limit file, warnings 0, errors 0, steps ${2:-0}
"
    wants_status 3
    wants_error ''
    wants_output "$log"
    wants_text job.blg "$log"
    wants_text job.bbl ''
    end
}

# A device without an end: its first bytes show that it is too long.
begin device_without_an_end
ln -sf /dev/zero job.aux
within 5000000 job
is_too_long 'The top-level auxiliary file: job.aux
'

# Where there is less memory than that takes, memory is refused.
begin device_without_an_end_in_little_memory
ln -sf /dev/zero d.bib
within 1000000 job
wants_status 5
wants_error $'bibtex: out of memory\n'
wants_output "${found_log%Database*}"
end

# A file of 3 GB without a byte on the disk, in the place of each file.
begin long_sparse_top_file
rm job.aux
truncate -s 3G job.aux
within 5000000 job
is_too_long 'The top-level auxiliary file: job.aux
'

begin long_sparse_style
rm s.bst
truncate -s 3G s.bst
within 5000000 job
is_too_long "${found_log%Database*}"

begin long_sparse_database
rm d.bib
truncate -s 3G d.bib
within 5000000 job
is_too_long "$found_log"

# What was wrong in the database before it is logged, and counted.
begin long_second_database
printf '\\citation{k}\n\\bibdata{d,e}\n\\bibstyle{s}\n' >job.aux
printf '@misc{,,}\n@misc{k, title = zz}\n' >d.bib
truncate -s 3G e.bib
within 5000000 job
wants_status 3
wants_error ''
wants_output "${found_log}Database file #2: e.bib
Error--I was expecting a name--line 1 of file d.bib
Warning--string name \"zz\" is undefined--line 2 of file d.bib
Ended: limit file, warnings 1, errors 1, steps 0
"
wants_text job.bbl ''
end

# A database of the greatest length is read, and one that is a byte longer isn't.
begin greatest_database
rm d.bib
truncate -s 2147483647 d.bib
within 5000000 job
wants_found 0 $'a\n' "Warning--I didn't find a database entry for \"k\"
Ended: finished, warnings 1, errors 0, steps 4"
truncate -s 2147483648 d.bib
within 5000000 job
is_too_long "$found_log"

# So is a style, and a top file: it is one line of the byte 0, after what stands there.
begin greatest_style
lines=$(wc -l <s.bst)
truncate -s 2147483647 s.bst
within 5000000 job
wants_found 2 $'a\n' "Error--I was expecting a command--line $((lines + 1)) of file s.bst
Ended: finished, warnings 0, errors 1, steps 4"
end

begin greatest_top_file
truncate -s 2147483647 job.aux
within 5000000 job
wants_found 0 $'a\n' 'Ended: finished, warnings 0, errors 0, steps 4'
end
