# Memory refused at each request in turn: a fault, and beginnings of the right outputs, or the whole answer.

refuse=$room/refuse.so
gcc -O2 -Wall -Werror -shared -fPIC -o "$refuse" "$here/refuse.c" -ldl

# More requests than any of these runs makes.
most_requests=20000

# run_refused N WORD..: runs the program with the Nth request for memory refused.
run_refused() {
    status=0
    timeout 60 env LD_PRELOAD="$refuse" REFUSE_AT="$1" REFUSE_NOTE="$folder/refused" "$program" "${@:2}" \
        </dev/null >"$folder/stdout" 2>"$folder/stderr" || status=$?
}

# wants_fault_or_answer: what stands after a run in which memory was refused once, where the whole answer is this status, list and log.
wants_fault_or_answer() {
    case $status in
    "$whole_status") wants_job "$whole_status" "$whole_list" "$whole_log" ;;
    5) wants_error $'bibtex: out of memory\n' ;;
    6) wants_error $'bibtex: device error\n' ;;
    *) complaints+=("the exit status is $status, not $whole_status, 5 or 6") ;;
    esac
    wants_beginning "$folder/stdout" "$whole_log"
    wants_beginning job.bbl "$whole_list"
    wants_beginning job.blg "$whole_log"
}

# refuses_each WANTS WORD..: runs the program with one request for memory after another refused, until none is, and asks WANTS of each run.
refuses_each() {
    local at before refused=0
    for ((at = 1; at <= most_requests; at++)); do
        rm -f job.bbl job.blg "$folder/refused"
        run_refused "$at" "${@:2}"
        [ -f "$folder/refused" ] || break
        refused=$at
        before=${#complaints[@]}
        "$1"
        [ ${#complaints[@]} -eq "$before" ] || complaints+=("so at request $at")
        # One bad run is enough.
        [ ${#complaints[@]} -lt 20 ] || break
    done
    [ "$refused" -gt 0 ] && [ "$refused" -lt "$most_requests" ] || complaints+=("$refused requests were refused")
    echo "        $refused requests for memory refused, one at a time"
}

# keep FILE VARIABLE: the variable becomes the file's bytes, the last line's end too.
keep() {
    local text
    text=$(cat "$1" && echo .)
    printf -v "$2" '%s' "${text%.}"
}

# refused_in EXAMPLE STATUS WORD..: an example's job of the name `job`, which ends with this status where no memory is refused.
refused_in() {
    begin "refused_memory_in_$1"
    rm -f d.bib job.aux s.bst
    cp "$examples/$1"/*.{aux,bib,bst} .
    whole_status=$2
    keep "$examples/$1/job.bbl" whole_list
    keep "$examples/$1/job.blg" whole_log
    refuses_each wants_fault_or_answer "${@:3}" job
    wants_status "$2"
    end
}

# refused_in_sorted: a job that is sorted, and whose citations are faulty. Its whole answer is what it gives where no memory is refused.
refused_in_sorted() {
    begin refused_memory_in_sorted
    cite 'k,K,c,a,b'
    printf '@misc{a, title = {A}}\n@misc{b}\n@misc{c}\n@misc{k, title = {B} # "b"}\n' >d.bib
    use_style "FUNCTION {f} {cite\$ 'sort.key\$ :=} FUNCTION {g} {cite\$ write\$ newline\$} ITERATE {f} SORT ITERATE {g}"
    run_program job
    whole_status=$status
    keep job.bbl whole_list
    keep job.blg whole_log
    wants_job 2 $'a\nb\nc\nk\n' "$whole_log"
    refuses_each wants_fault_or_answer job
    wants_status 2
    end
}

# refuses_worked STATUS: the job of the files that are there, which ends with this status where no memory is refused.
refuses_worked() {
    run_program job
    whole_status=$status
    wants_status "$1"
    keep job.bbl whole_list
    keep job.blg whole_log
    refuses_each wants_fault_or_answer job
    wants_status "$1"
}

# refused_in_worked NAME STATUS TEXT: a worked style after the usual declarations, run for the usual entry, or for those that are cited.
refused_in_worked() {
    begin "refused_memory_in_$1"
    use_style "$3"
    [ -z "${4:-}" ] || cite "$4"
    [ -z "${5:-}" ] || printf '%s' "$5" >d.bib
    refuses_worked "$2"
    end
}

# refused_in_children NAME KEYS LIST: two children of one parent, which stays in the list where both are cited.
refused_in_children() {
    begin "refused_memory_in_$1"
    cite "$2"
    printf '%s\n' '@misc{c1, title = {One}, crossref = {p}}' '@misc{c2, title = {Two}, crossref = {p}}' '@book{P, booktitle = {Vol}}' >d.bib
    printf '%s\n' 'ENTRY {title booktitle}{}{} FUNCTION {misc}{} FUNCTION {book}{} READ FUNCTION {f} {cite$ write$ ":" write$ crossref missing$ int.to.str$ write$ ":" write$ booktitle empty$ {"-"} {booktitle} if$ write$ newline$} ITERATE {f}' >s.bst
    refuses_worked 0
    [ "$whole_list" = "$3" ] || complaints+=("the list is $(printf '%q' "$whole_list")")
    end
}

# refused_in_open_argument: a citation whose argument has no end, so that no key is cited.
refused_in_open_argument() {
    begin refused_memory_in_an_open_argument
    printf '\\citation{k\n\\bibdata{d}\n\\bibstyle{s}\n' >job.aux
    use_style ''
    refuses_worked 2
    end
}

# first_of_two_faults: the log's file can't be written either. The status is that of the fault that came first.
first_of_two_faults() {
    begin first_of_two_faults
    local at first
    for ((at = 1; at <= most_requests; at++)); do
        rm -rf job.bbl job.blg "$folder/refused"
        run_refused "$at" job
        [ -f "$folder/refused" ] || break
        first=$status
        rm -rf job.bbl job.blg
        mkdir job.blg
        run_refused "$at" job
        [[ $first != [56] || $status == "$first" ]] || complaints+=("the exit status is $status, not $first, at request $at")
    done
    [ "$at" -gt 1 ] || complaints+=('no request was refused')
    end
}

refused_in first 0
refused_in cross_reference 2
refused_in database_error 2
refused_in stopped 4 --budget 200
refused_in utf8_names 0 --text utf8
refused_in long_lines 0
refused_in_sorted
refused_in_worked broken_line 0 "FUNCTION {f} {\"$(letters 80 a)  b\" write\$ newline\$} EXECUTE {f}"
refused_in_worked line_broken_between_two_calls 0 "FUNCTION {f} {\"$(letters 80 a) \" write\$ \" b\" write\$ newline\$} EXECUTE {f}"
refused_in_worked name 0 "FUNCTION {f} {\"Charles Louis Xavier Joseph de la Vall{\\'e}e Poussin\" #1 \"{vv~}{ll}{, jj}{, f}?\" format.name\$ write\$ newline\$} EXECUTE {f}"
refused_in_worked other_case 2 '' k,K
refused_in_worked white_in_argument 2 '' 'k, j'
refused_in_open_argument
refused_in_children one_child c1 $'c1:1:Vol\n'
refused_in_children both_children c1,c2 $'c1:0:Vol\nc2:0:Vol\nP:1:Vol\n'
refused_in_worked sorted_keys 0 "FUNCTION {f} {cite\$ 'sort.key\$ :=} FUNCTION {g} {cite\$ write\$ newline\$} ITERATE {f} SORT ITERATE {g}" b,a,C '@misc{a}@misc{b}@misc{C}'
first_of_two_faults

# wants_example: what the example of the library prints where memory was refused once: its list, or nothing. `faults` counts the runs that say what failed.
wants_example() {
    [ ! -s "$folder/stderr" ] || faults=$((faults + 1))
    case $status in
    0) wants_output "$whole_list" ;;
    5) wants_output '' ;;
    *) complaints+=("the exit status is $status, not 0 or 5") ;;
    esac
    [[ $(cat "$folder/stderr") == @(|'out of memory'|'device error') ]] || complaints+=("standard error is $(printf '%q' "$(cat "$folder/stderr")")")
}

# refused_in_library: a job over files in memory, by the example of the library. Where the finder itself gets no memory, nothing is run.
refused_in_library() {
    local program=$here/../crates/btx_example/out/btx_example
    if [ ! -x "$program" ]; then
        echo "        left out: there is no $program"
        return
    fi
    begin refused_memory_in_the_library
    keep "$here/../crates/btx_example/stdout" whole_list
    local faults=0
    refuses_each wants_example
    wants_status 0
    wants_output "$whole_list"
    [ "$faults" -gt 0 ] || complaints+=('no run says what failed')
    end
}

refused_in_library

# A refusal for want of memory has no text of its own, and each other one has its whole text.
# wants_memory_or_text: what stands after a run that was to print a text with a status, and in which memory was refused once.
wants_memory_or_text() {
    if [ "$status" -eq 5 ]; then
        wants_output ''
        wants_error $'bibtex: out of memory\n'
    else
        wants_status "$wanted_status"
        wants_output "$wanted_output"
        wants_error "$wanted_error"
    fi
    wants_files d.bib job.aux s.bst
}

# prints_all_or_nothing NAME WORD..: a command line that isn't run, with one request for memory after another refused.
prints_all_or_nothing() {
    begin "refused_memory_in_$1"
    run_program "${@:2}"
    wanted_status=$status
    keep "$folder/stdout" wanted_output
    keep "$folder/stderr" wanted_error
    [ -n "$wanted_output$wanted_error" ] || complaints+=('nothing is printed')
    refuses_each wants_memory_or_text "${@:2}"
    end
}

prints_all_or_nothing help --help
prints_all_or_nothing version --version
prints_all_or_nothing a_mistake --nope
prints_all_or_nothing a_value_out_of_range --line 19 job
