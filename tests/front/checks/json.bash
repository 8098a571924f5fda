# What bibtex-search prints with -json, as docs/RULES.md describes it.

if [ -x "$program" ]; then
    begin json_is_that_of_rules
    TEXMFCNF=$room/no_tex LD_LIBRARY_PATH=$room/no_tex python3 "$here/run_json.py" --hostile "$([ -n "$few" ] && echo 40 || echo 400)" "$program" "$search" >found || complaints+=("$(tail -n 12 found)")
    echo "        $(tail -n 1 found)"
    end
else
    echo 'left out: JSON beside the program (there is no program)'
fi

# wants_report TEXT: the last object has this.
wants_report() {
    tail -n 1 "$folder/stdout" | grep -qF '{"object": "report", ' || complaints+=('the last object is no report')
    tail -n 1 "$folder/stdout" | grep -qF -- "$1" || complaints+=("the report has no $1: $(tail -n 1 "$folder/stdout")")
}

begin json_of_a_job_that_is_not_run
mkdir job.blg
run_search -json job
wants_status 6
wants_report '"end": "device error", "status": 6,'
rmdir job.blg
run_search --json nosuch
wants_status 3
wants_report '"end": "no top file", "status": 3,'
end

begin json_of_a_log_that_is_not_written
run_search -json -explain-only job
wants_status 0
wants_report '"list": null, "list_bytes": null, "log": null,'
[ ! -e job.blg ] || complaints+=('a log was written')
end

begin json_that_cannot_be_printed
status=0
(start_search -json job) </dev/null >/dev/full 2>"$folder/stderr" || status=$?
wants_status 6
end

# A style or a database that isn't there stands where its name is written, which has no ending there.
begin json_of_a_name_without_its_ending
echo 'READ' >reads.bst
printf '%s\n' '\bibstyle{nosuch}' '\bibdata{x}' '\citation{*}' >style.aux
printf '%s\n' '\bibstyle{reads}' '\bibdata{nor.this}' '\citation{*}' >database.aux
for part in 'style "line": 1, "column": 11, "column_bytes": 11, "end": {"line": 1, "column": 17,' 'database "line": 2, "column": 10, "column_bytes": 10, "end": {"line": 2, "column": 18,'; do
    run_search -json "${part%% *}"
    grep -qF -- "${part#* }" "$folder/stdout" || complaints+=("no message has $part: $(cat "$folder/stdout")")
done
end
