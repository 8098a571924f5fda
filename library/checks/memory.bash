# Requests for memory that are refused, and memory that is read or lost.

for example in "${jobs[@]}"; do
    read -r folder_name job options <<<"$example"
    begin "refused_memory.${folder_name}.$job"
    run "$tests/refused" "$examples/$folder_name" "$job" 1 ${options-}
    wants_quiet
    end
done

if has valgrind; then
    grind() {
        run valgrind -q --error-exitcode=99 --leak-check=full --errors-for-leak-kinds=all "$@"
        wants_quiet
    }

    for example in 'first job' 'article article' 'database_error job'; do
        read -r folder_name job <<<"$example"
        begin "valgrind.${folder_name}.$job"
        run valgrind -q --error-exitcode=99 --leak-check=full --errors-for-leak-kinds=all "$tests/job" "$examples/$folder_name" "$job" list log
        wants_error ''
        [ "$status" -ne 99 ] || complaints+=('valgrind found errors')
        cmp -s list "$examples/$folder_name/$job.bbl" || complaints+=('the list is another')
        end
    done

    begin valgrind_refused_memory
    grind "$tests/refused" "$examples/first" job 3
    end

    begin valgrind_rooms
    grind "$tests/rooms" "$examples/first" job
    end

    begin valgrind_edges
    grind "$tests/edges"
    end
else
    echo 'left out: valgrind is not there'
fi
