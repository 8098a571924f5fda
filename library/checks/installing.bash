# What is installed, and programs that are built of it.

begin files_are_installed
# (where a link stands, the file that it leads to stays)
mkdir -p "$room/installed/lib/pkgconfig"
echo other >"$room/other"
ln -s "$room/other" "$room/installed/lib/pkgconfig/btx.pc"
run make --no-print-directory -C "$here" install OUT="$room/out" ARCHIVE="$archive" PREFIX="$room/installed"
wants_quiet
found=$(cd "$room/installed" && find . ! -type d | sort | tr '\n' ' ')
[ "$found" = './include/btx.h ./lib/libbtx.a ./lib/libbtx.so ./lib/libbtx.so.1 ./lib/libbtx.so.1.0.0 ./lib/pkgconfig/btx.pc ./share/man/man3/btx.3 ' ] || complaints+=("installed are $found")
[ "$(cat "$room/other")" = other ] || complaints+=('a file was overwritten through a link')
end

# build WORD..: builds a program of the test in C++ with what is installed, and runs it.
build() {
    run g++ -std=c++11 -Wall -Wextra -Wpedantic -Werror "$here/tests/header.cpp" "$@" -o header
    wants_quiet
    run env LD_LIBRARY_PATH="$room/installed/lib" ./header
    wants_quiet
    wants_output $'Ended: no top file, warnings 0, errors 0, steps 0\n'
}

if has g++; then
    begin shared_library_in_cpp
    build -I"$room/installed/include" -L"$room/installed/lib" -lbtx
    ldd header | grep -qF "$room/installed/lib/libbtx.so.1" || LD_LIBRARY_PATH=$room/installed/lib ldd header | grep -qF libbtx.so.1 || complaints+=('the shared library is not used')
    end

    begin static_library_in_cpp
    build -I"$room/installed/include" "$room/installed/lib/libbtx.a"
    end

    if has pkg-config; then
        begin words_of_pkg_config
        read -ra words < <(PKG_CONFIG_PATH=$room/installed/lib/pkgconfig pkg-config --cflags --libs btx)
        build "${words[@]}"
        [ "$(PKG_CONFIG_PATH=$room/installed/lib/pkgconfig pkg-config --modversion btx)" = 1.0.0 ] || complaints+=('the version is another')
        end
    else
        echo 'left out: pkg-config is not there'
    fi
else
    echo 'left out: g++ is not there'
fi

begin header_in_c99
printf '#include <btx.h>\nint main(void) { btx_options options = BTX_OPTIONS; return options.line != 79; }\n' >header.c
run gcc -std=c99 -Wall -Wextra -Wpedantic -Werror -I"$room/installed/include" header.c -o header
wants_quiet
run ./header
wants_quiet
end

if has groff; then
    begin man_page
    run groff -man -Tutf8 -ww -z "$here/btx.3"
    wants_quiet
    end

    begin program_of_the_man_page
    awk '/^\.EX/ { on = 1; next } /^\.EE/ { on = 0 } on' "$here/btx.3" | sed -e 's/\\e/\\/g' -e 's/\\-/-/g' >page.c
    run gcc -std=c11 -Wall -Wextra -Werror -I"$room/installed/include" page.c "$room/installed/lib/libbtx.a" -o page
    wants_quiet
    run ./page job
    wants_quiet
    wants_output $'a\n'
    end
else
    echo 'left out: groff is not there'
fi

begin files_are_taken_away
run make --no-print-directory -C "$here" uninstall OUT="$room/out" ARCHIVE="$archive" PREFIX="$room/installed"
wants_quiet
[ -z "$(find "$room/installed" ! -type d)" ] || complaints+=("left over: $(find "$room/installed" ! -type d)")
end
