# The library is built of the archive, and has what it says.

begin library_is_built
run make --no-print-directory -C "$here" OUT="$room/out" ARCHIVE="$archive"
wants_quiet
end

begin only_the_calls_are_visible
wants_names() {
    local found
    found=$(nm "$@" | awk '$2 == "T" || $2 == "D" || $2 == "B" || $2 == "W" { sub("@.*", "", $3); print $3 }' | sort | tr '\n' ' ')
    [ "$found" = 'btx_check btx_check_ends btx_needs btx_read btx_read_job btx_run btx_run_events btx_run_places btx_where ' ] || complaints+=("nm $1 shows $found")
}
wants_names "$room/out/libbtx.a"
wants_names -D "$room/out/libbtx.so.1"
end

begin nothing_but_memory_is_called
found=$(nm -u "$room/out/libbtx.a" | awk '$1 == "U" { print $2 }' | sort | tr '\n' ' ')
[ "$found" = 'free malloc memcpy memmove memset realloc ' ] || complaints+=("the library calls $found")
end

begin library_keeps_nothing
found=$(size -A "$room/out/libbtx.a" | awk '$1 ~ /^\.(data|bss)/ && $1 !~ /rel\.ro/ && $2 > 1 { print $1, $2 }')
[ -z "$found" ] || complaints+=("the library has $found")
end

begin shared_library_has_its_name
readelf -d "$room/out/libbtx.so.1" | grep -qF 'Library soname: [libbtx.so.1]' || complaints+=('the soname is another')
[ "$(readlink "$room/out/libbtx.so")" = libbtx.so.1 ] || complaints+=('libbtx.so is no link to it')
end

begin tests_are_compiled
for name in job rooms threads stack needs edges many read read_job events places; do
    compile "$name"
done
compile refused -Wl,--wrap=malloc,--wrap=realloc
end
