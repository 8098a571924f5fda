# Threads beside one another, and small stacks.

all=("$examples/first" job "$examples/article" article "$examples/cross_reference" job "$examples/database_error" job "$examples/long_lines" job)

begin four_threads
run "$tests/threads" 200 "${all[@]}"
wants_quiet
end

if has valgrind; then
    begin helgrind
    run valgrind -q --tool=helgrind --error-exitcode=99 "$tests/threads" 5 "${all[@]:0:4}"
    wants_quiet
    end
else
    echo 'left out: valgrind is not there'
fi

# wants_stack [BYTES]: the last run's stack was within the 64 KiB of the header, or within BYTES, the thread's own needs included.
wants_stack() {
    local most=${1:-65536}
    wants_quiet
    read -r used _ <"$folder/stdout"
    [ "${used:-$most}" -lt "$most" ] || complaints+=("$used bytes of stack were used")
}

for example in "${jobs[@]}"; do
    read -r folder_name job options <<<"$example"
    begin "stack.${folder_name}.$job"
    run "$tests/stack" "$examples/$folder_name" "$job" ${options-}
    wants_stack
    end
done

begin stack_of_nested_files
nest_files 19
run "$tests/stack" . job
wants_stack
end

begin stack_of_open_calls
nest_calls 4000
run "$tests/stack" . job
wants_stack
end

begin stack_of_braces
printf 'ENTRY {title}{}{} FUNCTION {misc} {title "t" change.case$ purify$ write$ newline$} READ ITERATE {call.type$}' >s.bst
cite a
braces=$(printf '{%.0s' $(seq 20000))
printf '@misc{a, title = {%s%s}}\n' "$braces" "${braces//\{/\}}" >d.bib
run "$tests/stack" . job
wants_stack
end

# check_nested NAME VERDICT BODY: a style with this body in its function misc is checked within the 1 MiB of the header, with this verdict.
check_nested() {
    begin "stack_of_check.$1"
    printf 'ENTRY {title}{}{} INTEGERS {i}\nFUNCTION {misc} {%s}\nREAD ITERATE {misc}\n' "$3" >s.bst
    run "$tests/stack" --check . s.bst
    wants_stack 1048576
    read -r _ _ _ _ verdict <"$folder/stdout"
    [ "$verdict" = "$2" ] || complaints+=("the verdict is $verdict")
    end
}

check_nested 100_choices clean "$(letters 100 'i { ')$(letters 100 "} 'skip\$ if\$ ")"
check_nested choices incomplete "$(letters 1000 'i { ')$(letters 1000 "} 'skip\$ if\$ ")"
check_nested choices_behind_a_fault warnings "title write\$ $(letters 1000 'i { ')$(letters 1000 "} 'skip\$ if\$ ")"
check_nested loops incomplete "$(letters 1000 '{i} { ')$(letters 1000 '} while$ ')"
check_nested loops_and_choices incomplete "$(letters 19 '{i} { ')$(letters 1000 'i { ')$(letters 1000 "} 'skip\$ if\$ ")$(letters 19 '} while$ ')"
check_nested recursion incomplete "{duplicate\$ i swap\$ 'skip\$ if\$} duplicate\$ i swap\$ 'skip\$ if\$ pop\$"

begin stack_of_check.calls
nest_calls 4000
run "$tests/stack" --check . s.bst
wants_stack 1048576
end
