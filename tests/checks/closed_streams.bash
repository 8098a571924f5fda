# The program is started with standard streams closed. No file of the job takes the place of a stream, and nothing that is printed lands in a file.

device_error=$'bibtex: device error\n'

# wants_streams STREAMS OUTPUT: this was printed on standard output. Where that is closed, it could not be printed, which is a device error.
wants_streams() {
    case $1 in
        *1*)
            wants_status 6
            wants_output ''
            [[ $1 == *2* ]] && wants_error '' || wants_error "$device_error"
            ;;
        *)
            wants_status 0
            wants_output "$2"
            wants_error ''
            ;;
    esac
}

warned_log="${found_log}Warning--I didn't find a database entry for \"k\"
Ended: finished, warnings 1, errors 0, steps 0
"
for streams in 0 1 2 01 02 12 012; do
    begin "closed_streams_$streams"
    run_without "$streams" start_program job
    wants_streams "$streams" "$first_log"
    wants_text job.bbl $'a\n'
    wants_text job.blg "$first_log"
    wants_files d.bib job.aux job.bbl job.blg s.bst
    end

    for stream in $(echo "$streams" | grep -o .); do
        begin "database_from_stream_${stream}_of_closed_streams_$streams"
        use_stream "$stream"
        run_without "$streams" start_program job
        wants_streams "$streams" "$warned_log"
        wants_text job.bbl ''
        wants_text job.blg "$warned_log"
        end
    done

    # The list can't be created: the fault is the status, and nothing else is written.
    begin "fault_with_closed_streams_$streams"
    mkdir job.bbl
    run_without "$streams" start_program job
    wants_status 6
    wants_output ''
    [[ $streams == *2* ]] && wants_error '' || wants_error "$device_error"
    wants_files d.bib job.aux job.bbl s.bst
    end
done
