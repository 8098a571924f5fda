# The example jobs, byte by byte, and what may be left out of them.

for example in "${jobs[@]}"; do
    read -r folder_name job options <<<"$example"
    set -- "$examples/$folder_name" "$job" ${options-}

    begin "example.${folder_name}.$job"
    run "$tests/job" "$1" "$2" list log ${options-}
    cmp -s list "$1/$job.bbl" || complaints+=('the list is another')
    cmp -s log "$1/$job.blg" || complaints+=('the log is another')
    wants_error ''
    end

    begin "rooms.${folder_name}.$job"
    run "$tests/rooms" "$@"
    wants_quiet
    end

    begin "choices_of_files.${folder_name}.$job"
    run "$tests/needs" "$@"
    wants_quiet
    end
done

begin edges
run "$tests/edges"
wants_quiet
end
