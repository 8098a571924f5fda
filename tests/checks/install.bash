# What `make install` puts where, and the man page.

# make_there WORD..: make in the sources, with the check's folder as DESTDIR. Scripts stand for the front end, which this check needs no cargo for.
make_there() {
    mkdir -p "$folder/front"
    printf '#!/bin/sh\n' | tee "$folder/front/bibtex-search" >"$folder/front/bibtex-confined"
    chmod +x "$folder"/front/*
    status=0
    make -C "$here/.." --no-print-directory program="$program" front="$folder/front" PREFIX=/usr DESTDIR="$folder/root" "$@" \
        </dev/null >"$folder/stdout" 2>"$folder/stderr" || status=$?
}

# wants_installed NAME..: these files and links stand below DESTDIR, beside documents and the library, and no other.
wants_installed() {
    local found
    found=$(cd "$folder/root" 2>/dev/null && find . ! -type d | grep -v '^\./usr/\(share/doc\|share/man/man3\|lib\|include\)/' | LC_ALL=C sort | tr '\n' ' ') || true
    [ "$found" = "${*:+$* }" ] || complaints+=("installed are '$found', not '$*'")
}

if command -v make >/dev/null; then
    # (the package, with a link to the library where that is built)
    package=$(cd "$here/../python" && ls btx/*.py btx/py.typed)
    [ ! -f "$here/../library/out/libbtx.so.1" ] || package="$package btx/libbtx.so.1"
    package=$(printf './usr/share/bibtex-proved/python/%s\n' $package | LC_ALL=C sort)

    begin installed
    make_there install
    wants_status 0
    wants_error ''
    wants_installed ./usr/bin/bibtex-confined ./usr/bin/bibtex-explain ./usr/bin/bibtex-lint ./usr/bin/bibtex-proved ./usr/bin/bibtex-search \
        ./usr/share/bash-completion/completions/bibtex-confined ./usr/share/bash-completion/completions/bibtex-lint ./usr/share/bash-completion/completions/bibtex-proved \
        ./usr/share/bash-completion/completions/bibtex-search \
        ./usr/share/bibtex-proved/editors/btx.el ./usr/share/bibtex-proved/editors/btx.lua ./usr/share/bibtex-proved/editors/vscode/extension.js \
        ./usr/share/bibtex-proved/editors/vscode/language.json ./usr/share/bibtex-proved/editors/vscode/package.json $package \
        ./usr/share/fish/vendor_completions.d/bibtex-confined.fish ./usr/share/fish/vendor_completions.d/bibtex-lint.fish ./usr/share/fish/vendor_completions.d/bibtex-proved.fish \
        ./usr/share/fish/vendor_completions.d/bibtex-search.fish \
        ./usr/share/man/man1/bibtex-confined.1 ./usr/share/man/man1/bibtex-explain.1 ./usr/share/man/man1/bibtex-lint.1 ./usr/share/man/man1/bibtex-proved.1 \
        ./usr/share/man/man1/bibtex-search.1 ./usr/share/texmf/tex/luatex/btx/btx.lua ./usr/share/texmf/tex/luatex/btx/btx_languages.lua \
        ./usr/share/texmf/tex/luatex/btx/btx_letters.lua ./usr/share/texmf/tex/luatex/btx/btx_style_keys.lua ./usr/share/vim/vimfiles/compiler/bibtex-search.vim \
        ./usr/share/zsh/site-functions/_bibtex-search
    cmp -s "$folder/root/usr/bin/bibtex-proved" "$program" || complaints+=('the installed program is another')
    for name in proved search explain confined; do
        [ -x "$folder/root/usr/bin/bibtex-$name" ] || complaints+=("the installed bibtex-$name may not be run")
    done
    for link in $(find "$folder/root" -xtype l); do
        complaints+=("the link $link leads nowhere")
    done
    grep -q '^\.TH BIBTEX\\-PROVED ' "$folder/root/usr/share/man/man1/bibtex-proved.1" || complaints+=('the page has another name')
    for file in README.md CHANGELOG.md docs/RULES.md contrib/README.md examples/first/job.aux; do
        cmp -s "$here/../$file" "$folder/root/usr/share/doc/bibtex-proved/$file" || complaints+=("there is no document $file")
    done
    end

    # The system's Python finds the package by a line in a folder of its own below PREFIX.
    if [ -x /usr/bin/python3 ]; then
        begin installed_package_is_found
        make_there install PREFIX=/usr/local
        wants_status 0
        line=$(find "$folder/root/usr/local/lib" -name bibtex-proved.pth 2>/dev/null)
        /usr/bin/python3 -B -c 'import importlib.util, site, sys
for line in sys.argv[1:]:
    path = open(line).read().rstrip("\n")
    folder = line.split("/usr/local/")[0]
    assert line[len(folder):].rpartition("/")[0] in site.getsitepackages() and path == "/usr/local/share/bibtex-proved/python", line
    sys.path.append(folder + path)
assert importlib.util.find_spec("btx").origin.startswith(folder)' $line 2>"$folder/stderr" || complaints+=("the package isn't found: $(tail -n 1 "$folder/stderr")")
        make_there uninstall PREFIX=/usr/local
        [ -z "$(find "$folder/root" ! -type d)" ] || complaints+=("there is $(find "$folder/root" ! -type d)")
        end
    fi

    begin install_without_a_program
    make_there program=/nosuch/bibtex install
    wants_status 2
    wants_error_with 'there is no /nosuch/bibtex: run make first'
    wants_installed
    end

    begin install_without_a_front_end
    make_there front=/nosuch install-front
    wants_status 2
    wants_error_with 'there is no /nosuch/bibtex-search: run make front first'
    wants_installed
    end

    begin installed_under_another_name
    make_there install NAME=bibtex
    wants_status 0
    cmp -s "$folder/root/usr/bin/bibtex" "$program" || complaints+=('the installed program is another')
    cmp -s "$folder/root/usr/share/man/man1/bibtex.1" "$here/../docs/bibtex.1" || complaints+=('the page is another')
    end

    begin installed_below_a_name_with_spaces
    make_there install DESTDIR="$folder/two words"
    wants_status 0
    [ -x "$folder/two words/usr/bin/bibtex-search" ] && [ -f "$folder/two words/usr/share/doc/bibtex-proved/examples/first/job.aux" ] ||
        complaints+=('there is no program, or no document')
    end

    begin uninstalled
    make_there install
    make_there uninstall
    wants_status 0
    wants_installed
    [ -z "$(find "$folder/root" ! -type d)" ] || complaints+=("there is $(find "$folder/root" ! -type d)")
    end
else
    echo 'left out: make install (there is no make)'
fi

# The man page names each option and status that the help names, and has no fault.
begin man_page
page=$here/../docs/bibtex.1
"$program" --help >"$folder/help"
for option in $(grep -o -- '^ *\(-[hV], \)\?--[a-z-]*' "$folder/help" | grep -o -- '--[a-z-]*'); do
    grep -qF -- "${option//-/\\-}" "$page" || complaints+=("the man page does not name $option")
done
for number in $(grep -o '^  [0-9]  ' "$folder/help"); do
    grep -qx ".B $number" "$page" || complaints+=("the man page does not list status $number")
done
if command -v groff >/dev/null; then
    groff -ww -man -Tutf8 "$page" >"$folder/page" 2>"$folder/warnings" || complaints+=('groff does not take the man page')
    wants_text "$folder/warnings" ''
else
    echo 'left out: warnings of the man page (there is no groff)'
fi
end
