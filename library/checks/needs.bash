# The files that a job needs: each choice of them is handed in.

begin included_files
printf '\\@input{a.aux}\n\\@input{b.aux}\n\\@input{missing.aux}\n\\@input{a.aux}\n\\citation{k}\n\\bibdata{d,none}\n\\bibstyle{s}\n' >job.aux
printf '\\@input{c.aux}\n\\citation{a}\n' >a.aux
printf '\\@input{a.aux}\n\\@input{chapter.tex}\n' >b.aux
printf '\\citation{c}\n' >c.aux
run "$tests/needs" . job
wants_quiet
wants_output $'256 choices\n'
end

begin names_that_are_no_words
printf '\\@input{a, b.aux}\n\\@input{%%s\\n.aux}\n\\@input{\303\251.aux}\n\\@input{.aux}\n\\@input{x.AUX}\n\\citation{k}\n\\bibdata{}\n\\bibstyle{}\n' >job.aux
run "$tests/needs" . job
wants_quiet
end

begin no_style
printf '\\citation{k}\n\\bibdata{d}\n' >job.aux
run "$tests/needs" . job
wants_quiet
wants_output $'2 choices\n'
end

begin no_top_file
rm job.aux
run "$tests/needs" . job
wants_quiet
wants_output $'2 choices\n'
end

# The 21st file isn't asked for, and neither are the style and the database: the run ends at its limit.
begin too_many_open_files
nest_files 20
run "$tests/job" . job list log
wants_status 3
wants_error ''
wants_text list ''
wants_output $'status 3, end 8, steps 0, deepest 0, warnings 0, errors 0\n'
end

begin many_files
for n in $(seq 1 40); do
    printf '\\citation{k%d}\n' "$n" >"f$n.aux"
done
{
    printf '\\@input{f%d.aux}\n' $(seq 1 40)
    printf '\\bibdata{d}\n\\bibstyle{s}\n'
} >job.aux
run "$tests/job" . job list log
wants_error ''
[ "$(grep -c auxiliary log)" -eq 41 ] || complaints+=("the log has $(grep -c auxiliary log) files")
end

# A table of the names: 100,000 files in another order than the one in which they are asked for.
begin many_names
run "$tests/many" 100000
wants_error ''
read -r seconds _ <"$folder/stdout"
[ "${seconds%.*}" -lt 2 ] || complaints+=("100,000 names take $seconds s")
end
