# What the checks of the front end are written with, beside tests/checks.bash. `check` sets the names that stand here.

unset BIBINPUTS BSTINPUTS TEXINPUTS TEXMFOUTPUT TEXMFCNF TEXMFDBS TEXMFHOME NO_COLOR BIBTEX_PROGRAM openout_any openin_any
export BIBTEX_PROGRAM=$program TMPDIR=$room/temporary
mkdir "$TMPDIR" "$room/no_tex"

# (what is found first may be a script that finds the one that is chosen, and takes longer than the check)
python=$(command python3 -c 'import sys; print(sys.executable)')
python3() {
    "$python" "$@"
}

# Where TeX's search library is not to be found: one that can't be opened stands before it.
: >"$room/no_tex/libkpathsea.so.6"

# The folder in which the loader looks first for TeX's search library. Without TeX, its set-up isn't found either.
libraries=
if [ "$with_tex" != yes ]; then
    libraries=$room/no_tex
    export TEXMFCNF=$room/no_tex
fi

# can_be_loaded KILOBYTES PROGRAM: in KILOBYTES of memory the system can load PROGRAM, of which nothing is run here. Else the loader dies, or says what it can't map.
can_be_loaded() {
    local status=0
    (
        ulimit -v "$1"
        LD_TRACE_LOADED_OBJECTS=1 LD_LIBRARY_PATH=$libraries exec "$2" </dev/null
    ) >/dev/null 2>&1 || status=$?
    [ "$status" -ne 139 ] && [ "$status" -ne 127 ]
}

# has TOOL: this tool of TeX may be used, and is there.
has() {
    [ "$with_tex" = yes ] && command -v "$1" >/dev/null
}

# there_is TOOL WHY: the tool is there; where it isn't, what is left out is said.
there_is() {
    command -v "$1" >/dev/null || {
        echo "left out: $2 (without $1)"
        return 1
    }
}

# How many seconds a run may take.
seconds=60

# start_search WORD..: becomes bibtex-search, with no more memory than a run may take.
start_search() {
    ulimit -v 4000000
    LD_LIBRARY_PATH=$libraries exec timeout -k 5 "$seconds" "$search" "$@"
}

# run_search WORD..: runs bibtex-search as tests/run runs the program.
run_search() {
    status=0
    (start_search "$@") </dev/null >"$folder/stdout" 2>"$folder/stderr" || status=$?
}

# run_plainly WORD..: the same without TeX.
run_plainly() {
    TEXMFCNF=$room/no_tex libraries=$room/no_tex run_search "$@"
}

# run_by_set_up WORD..: runs bibtex-search where TeX is installed, but not its search library.
run_by_set_up() {
    local kept=${TEXMFCNF-}
    unset TEXMFCNF
    libraries=$room/no_tex run_search "$@"
    [ -z "$kept" ] || export TEXMFCNF=$kept
}

# messages LOG: its messages, in the shape of the program's log.
messages() {
    python3 "$here/messages.py" "$1"
}

# wants_messages LOG LINE..: these are its messages.
wants_messages() {
    local found
    found=$(messages "$1")
    [ "$found" = "$(printf '%s\n' "${@:2}")" ] || complaints+=("the messages are $(printf '%q' "$found"), not $(printf '%q' "$(printf '%s\n' "${@:2}")")")
}

# log_of FILE: a log from the line that names the top file on. What stands before it is who wrote it.
log_of() {
    sed -n '/^The top-level auxiliary file: /,$p' "$1"
}

# wants_log FILE TEXT: the log has these bytes.
wants_log() {
    if [ ! -f "$1" ]; then
        complaints+=("there is no $(basename "$1")")
    elif ! log_of "$1" | cmp -s - <(printf '%s' "$2"); then
        complaints+=("$(basename "$1") is $(printf '%q' "$(log_of "$1")"), not $(printf '%q' "$2")")
    fi
}

# wants_line FILE LINE: the file has this line.
wants_line() {
    grep -qxF -- "$2" "$1" || complaints+=("$(basename "$1") has no line '$2': $(printf '%q' "$(head -c 2000 "$1")")")
}

# wants_words FILE TEXT: a line of the file has this text.
wants_words() {
    grep -qF -- "$2" "$1" || complaints+=("$(basename "$1") has no '$2': $(printf '%q' "$(head -c 2000 "$1")")")
}

# wants_error_like EXPRESSION: a line of standard error is like this.
wants_error_like() {
    grep -qE -- "$1" "$folder/stderr" || complaints+=("standard error has no '$1': $(printf '%q' "$(cat "$folder/stderr")")")
}

# wants_clean: nothing is left in the folder for temporary files.
wants_clean() {
    [ -z "$(ls -A "$TMPDIR")" ] || complaints+=("left over: $(ls -A "$TMPDIR")")
}

# wants_first BASE: the first example's list and log stand at BASE.bbl and BASE.blg, and its log was printed.
wants_first() {
    wants_status 0
    wants_text "$1.bbl" $'a\n'
    if [ -f "$1.blg" ]; then
        ! messages "$1.blg" | grep -q '^[EW]' || complaints+=("$1.blg has messages: $(messages "$1.blg")")
        grep -q '^Database file #1: ' "$1.blg" || complaints+=("$1.blg is $(cat "$1.blg")")
        cmp -s <(log_of "$1.blg") <(log_of "$folder/stdout") || complaints+=('what was printed is not the log')
    else
        complaints+=("there is no $1.blg")
    fi
    wants_error ''
    wants_clean
}

# wants_refusal TEXT: status 1, this text on standard error, and no output.
wants_refusal() {
    wants_status 1
    wants_error_with "$1"
    [ -z "$(find . -name '*.bbl' -o -name '*.blg')" ] || complaints+=("there is $(find . -name '*.b[bl][lg]')")
    wants_clean
}

# leave_old: an earlier run left a list and a log. wants_old: they stand there still.
leave_old() {
    echo 'old list' >job.bbl
    echo 'old log' >job.blg
}

wants_old() {
    wants_text job.bbl $'old list\n'
    wants_text job.blg $'old log\n'
    wants_clean
}

# wants_whole_or_old LIST: the list is the old one, or begins this one; beside a new list there is no old log.
wants_whole_or_old() {
    if [ "$(cat job.bbl 2>/dev/null)" != 'old list' ]; then
        wants_beginning job.bbl "$1"
        [ "$(cat job.blg 2>/dev/null)" != 'old log' ] || complaints+=("an old log stands beside a new list: $(printf '%q' "$(cat job.bbl)")")
    fi
}

# another_user: checks can be run as a user who owns nothing.
another_user() {
    [ "$(id -u)" -eq 0 ] && setpriv --reuid 65534 --regid 65534 --clear-groups true 2>/dev/null
}

# run_as_another WORD..: runs bibtex-search as such a user.
run_as_another() {
    [ -x "$room/search" ] || install -m 755 "$search" "$room/search"
    chmod a+rx "$room" "$room/no_tex"
    chmod 777 "$TMPDIR"
    status=0
    LD_LIBRARY_PATH=$libraries setpriv --reuid 65534 --regid 65534 --clear-groups "$room/search" "$@" </dev/null >"$folder/stdout" 2>"$folder/stderr" || status=$?
}

# on_terminal COLUMNS WORD..: runs bibtex-search on a terminal of its own; what it prints there.
on_terminal() {
    LD_LIBRARY_PATH=$libraries python3 "$here/on_terminal.py" "$1" "$search" "${@:2}"
}

# named DATABASE STYLE: the job names these.
named() {
    printf '\\citation{k}\n\\bibdata{%s}\n\\bibstyle{%s}\n' "$1" "$2" >job.aux
}

# keep_at_home: the database and the style stand in the tree of a home, in folders of folders.
keep_at_home() {
    mkdir -p home/texmf/bibtex/{bst,bib}/sub
    mv d.bib home/texmf/bibtex/bib/sub
    mv s.bst home/texmf/bibtex/bst/sub
}

# files_of_tex_live ENDING: the names of all styles (bst) or databases (bib) that kpsewhich finds in TeX's trees.
files_of_tex_live() {
    find $(kpsewhich -expand-braces='$TEXMF' | tr : '\n' | sed 's/^!!//' | sort -u) -name "*.$1" -printf '%f\n' 2>/dev/null | grep -v "[ ,{}]" | sort -u >"$folder/all" || true
    kpsewhich -progname=bibtex -format="$1" $(cat "$folder/all") | sed 's,.*/,,' || true
}

# find_each ENDING RUN: a job that names one of the files finds it, for each of standard input's.
find_each() {
    local name number=0
    while read -r name; do
        case $1 in
        bst) printf '\\bibstyle{%s}\n' "$name" >job.aux ;;
        bib) printf '\\citation{k}\n\\bibdata{%s}\n\\bibstyle{s}\n' "$name" >job.aux ;;
        esac
        "$2" -budget=0 -terse job
        grep -qE '^(The style file|Database file #1): ' job.blg || complaints+=("not found: $name")
        number=$((number + 1))
    done < <(if [ -n "$few" ]; then head -n 20; else cat; fi)
    echo "        $number files"
    [ "$number" -gt 0 ] || complaints+=('no file was looked for')
}

# The rules for names: with which of openout_any's choices, any, restricted and paranoid, a name is allowed where TEXMFOUTPUT is the folder
# ALLOWED. The same holds of openin_any.
rules='
arp job.bbl
arp ./job.bbl
arp a/./job.bbl
arp a//job.bbl
arp j..b.bbl
arp a b.bbl
arp $HOME/x.bbl
arp ~/job.bbl
arp ALLOWED/job.bbl
ar ../job.bbl
ar ./../job.bbl
ar a/../job.bbl
ar /tmp/job.bbl
ar ALLOWEDto/job.bbl
ar ALLOWED/../job.bbl
a .job.bbl
a ..job.bbl
a ./.job.bbl
a .../job.bbl
a a/.job.bbl
a a/..job.bbl
a .a/job.bbl
a ALLOWED/.job.bbl
'

# each_rule COMMAND: calls it with each choice that openout_any may have, each name, and whether it is allowed then: 0 or 1.
each_rule() {
    local letters name choice
    while IFS=' ' read -r letters name; do
        [ -n "$letters" ] || continue
        for choice in any yes 1 restricted no 0 paranoid x; do
            case $choice in
            [ay1]*) letter=a ;;
            [rn0]*) letter=r ;;
            *) letter=p ;;
            esac
            case $letters in
            *$letter*) "$1" "$choice" "${name/ALLOWED/$PWD/allowed}" 0 ;;
            *) "$1" "$choice" "${name/ALLOWED/$PWD/allowed}" 1 ;;
            esac
        done
    done <<<"$rules"
}

# by_run RUN CHOICE NAME STATUS: bibtex-search, called by RUN, says of an output with this name whether it may be written.
by_run() {
    local found=0 job=${3%.bbl}
    mkdir -p "$(dirname "$3")" 2>/dev/null
    cp "$folder/job.aux" "$job.aux" 2>/dev/null || return 0
    TEXMFOUTPUT=$PWD/allowed openout_any=$2 "$1" -terse -- "$job"
    ! grep -q 'Not writing to' "$folder/stderr" || found=1
    [ "$4" -eq "$found" ] || complaints+=("$3 with $2: $found, and not $4: $(cat "$folder/stderr")")
    rm -f "$job".*
}
