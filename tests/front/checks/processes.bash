# One process, and no file made but the two outputs.

# traced WORD..: runs bibtex-search under strace.
traced() {
    status=0
    LD_LIBRARY_PATH=$libraries strace -f -o "$folder/trace" -e trace=execve,fork,vfork,clone,clone3,open,openat,creat,mkdir,mkdirat,symlink,symlinkat,link,linkat,mknod,mknodat,rename,renameat,renameat2,unlink,unlinkat,socket,connect \
        "$search" "$@" </dev/null >"$folder/stdout" 2>"$folder/stderr" || status=$?
}

# wants_one_process: nothing was executed but bibtex-search itself, no process was made (a thread is none), and nothing but the outputs was opened to be written.
wants_one_process() {
    [ "$(grep -c 'execve(' "$folder/trace")" -eq 1 ] || complaints+=("executed: $(grep 'execve(' "$folder/trace")")
    ! grep -E '(fork|clone3?)\(' "$folder/trace" | grep -v CLONE_THREAD | grep . >"$folder/made" || complaints+=("processes: $(cat "$folder/made")")
    ! grep -E '(mkdir|symlink|link|mknod|rename|socket|connect)(at2?)?\(' "$folder/trace" | grep . >"$folder/made" || complaints+=("made: $(cat "$folder/made")")
    ! grep -E 'O_(WRONLY|RDWR|CREAT)' "$folder/trace" | grep -vE '"[^"]*\.(bbl|blg)"' | grep . >"$folder/made" || complaints+=("written: $(cat "$folder/made")")
}

if there_is strace 'which processes are made'; then
    begin one_process
    traced job
    wants_first job
    wants_one_process
    end

    begin one_process_with_messages
    write_explained
    traced -explain job
    wants_status 2
    wants_one_process
    end

    begin one_process_for_many_names
    printf '\\citation{k}\n\\bibdata{d,%s}\n\\bibstyle{s}\n' "$(seq -s , 100)" >job.aux
    traced job
    wants_status 2
    wants_one_process
    end

    # What it reads beside TeX's set-up are the files of the job.
    begin files_that_are_read
    mkdir elsewhere
    echo secret >elsewhere/secret.bib
    run_plainly job
    TEXMFCNF=$room/no_tex LD_LIBRARY_PATH=$room/no_tex strace -f -o "$folder/trace" -e trace=open,openat "$search" job >/dev/null </dev/null
    grep -o '"[^"]*"' "$folder/trace" | grep -vE '^"(/etc/ld|/lib|/usr/lib|/proc|/sys|/dev)|no_tex' | tr -d '"' | sort -u >found
    printf '%s\n' d.bib job.aux job.bbl job.blg s.bst | cmp -s - <(sed 's,.*/,,' found | sort -u) || complaints+=("opened: $(tr '\n' ' ' <found)")
    end
fi

# No tool is needed: nothing stands on the search path.
begin no_tool_on_the_path
mkdir empty
status=0
LD_LIBRARY_PATH=$libraries PATH=$PWD/empty "$search" -explain job </dev/null >"$folder/stdout" 2>"$folder/stderr" || status=$?
wants_first job
end

begin empty_environment
status=0
env -i ${libraries:+"LD_LIBRARY_PATH=$libraries"} "$search" job </dev/null >"$folder/stdout" 2>"$folder/stderr" || status=$?
wants_first job
end

begin no_arguments_at_all
status=0
LD_LIBRARY_PATH=$libraries python3 -c 'import os, sys; os.execv(sys.argv[1], [""])' "$search" </dev/null >"$folder/stdout" 2>"$folder/stderr" || status=$?
wants_status 1
end

begin few_descriptors
for ((descriptors = 12; descriptors > 2; descriptors--)); do
    leave_old
    status=0
    LD_LIBRARY_PATH=$libraries timeout 60 sh -c 'ulimit -n "$0" && exec "$@"' "$descriptors" "$search" job </dev/null >"$folder/stdout" 2>"$folder/stderr" || status=$?
    case $status in
    0) ;;
    127) break ;;
    2 | 3 | 6) wants_whole_or_old $'a\n' ;;
    *) complaints+=("with $descriptors descriptors the exit status is $status") ;;
    esac
    [ "$status" -ne 2 ] || complaints+=("with $descriptors descriptors the document is blamed: $(cat job.blg "$folder/stderr")")
done
end

# Costs grow with the number of files, and memory with their sizes.
begin very_many_files
printf '\\@input{i%s.aux}\n' $(seq 20000) | cat - job.aux >many.aux
seconds=30
run_search many
seconds=60
wants_status 2
[ "$(messages many.blg | wc -l)" -eq 20000 ] || complaints+=("the log has $(messages many.blg | wc -l) messages")
end

# costs FILE SIZE KB: where FILE has SIZE bytes, a run takes at most KB KB of memory.
costs() {
    begin "memory_of_a_large_${1//./_}_$2"
    truncate -s "$2" "$1"
    LD_LIBRARY_PATH=$libraries python3 "$here/measured.py" "$folder/stdout" "$folder/stderr" timeout 60 "$search" -terse job >measured
    read -r status took memory <measured
    echo "        status $status, $memory KB"
    [ "$memory" -le "$3" ] || complaints+=("it took $memory KB")
    end
}
# (the library keeps a database beside the bytes that it is handed)
costs d.bib 200M 430000
costs s.bst 100M 330000
costs d.bib 100G 2400000

# Two runs at once in one folder: each list is whole.
begin two_runs_at_once
for turn in {1..10}; do
    run_search job &
    (start_search job) </dev/null >/dev/null 2>&1 || complaints+=('a run failed')
    wait $! || complaints+=('a run failed')
    wants_text job.bbl $'a\n'
done
end
