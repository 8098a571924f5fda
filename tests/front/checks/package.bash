# The packages that contrib/make-deb builds: what is in them, whether the links of the documents work, and whether the programs do.

# Where a link stands in a page's place, the file that it leads to stays.
begin page_installed_over_a_link
mkdir -p there/share/man/man1
echo other >other
ln -s "$PWD/other" there/share/man/man1/bibtex-proved.1
make -s -C "$sources" install-program PREFIX="$PWD/there" BIBTEX_PROGRAM="$program" >"$folder/stdout" 2>"$folder/stderr" || complaints+=("make fails: $(cat "$folder/stderr")")
wants_text other $'other\n'
grep -q '^\.TH BIBTEX' there/share/man/man1/bibtex-proved.1 || complaints+=('the page is not there')
end

# What contrib/setup installs of crates are those of front/Cargo.toml, at the versions of the lock file; and it installs nothing where it is only asked.
begin crates_that_are_set_up
while read -r crate; do
    echo "$crate-$(grep -A 1 "^name = \"$crate\"" "$sources/front/Cargo.lock" | sed -n 's/^version = "\(.*\)"/\1/p')"
done < <(sed -n '/^\[dependencies\]/,/^\[lints/s/^\([a-z_-]*\) = .*/\1/p' "$sources/front/Cargo.toml"; echo serde_derive) | LC_ALL=C sort >wanted
sed -n 's,^\([^ ]*\)/ .*,\1,p' "$sources/contrib/setup" | LC_ALL=C sort >found
cmp -s wanted found || complaints+=("installed are $(diff wanted found)")
status=0
BTX_CRATES=/nonexistent "$sources/contrib/setup" --dry-run build >"$folder/stdout" 2>"$folder/stderr" || status=$?
wants_status 1
grep -qE 'would be: .*apt-get install .* librust-libc-dev .*librust-unicode-width-dev$' "$folder/stdout" || complaints+=("it says $(cat "$folder/stdout")")
end

# It says where cargo is too old.
begin cargo_of_an_older_rust
mkdir older
printf '#!/bin/sh\necho "cargo 1.63.0 (fd9c4297c 2022-07-01)"\n' >older/cargo
chmod +x older/cargo
PATH=$PWD/older:$PATH "$sources/contrib/setup" --dry-run build >"$folder/stdout" 2>"$folder/stderr" || true
grep -q 'this cargo is of Rust 1\.63\.0; the front end needs one of Rust 1\.88 or later' "$folder/stdout" || complaints+=("it says $(cat "$folder/stdout")")
end

begin links_of_the_sources
mkdir sources
(cd "$sources" && cp --parents README.md CHANGELOG.md docs/*.md contrib/*.md examples/*.md examples/*/*.md "$folder/work/sources" && cp -r examples "$folder/work/sources")
python3 "$here/links.py" sources >found || complaints+=("$(cat found)")
end

# A lintian that says nothing, since the real one takes seconds; it is called once, for the first package.
mkdir "$room/no_lintian"
ln -s "$(command -v true)" "$room/no_lintian/lintian"

# make_packages WORD..: make-deb, with the programs that are checked.
make_packages() {
    status=0
    PATH=${tools-$room/no_lintian:}$PATH DEBFULLNAME=Nobody DEBEMAIL=nobody@example.org BIBTEX_FRONT=$programs \
        "$sources/contrib/make-deb" "$@" </dev/null >"$folder/stdout" 2>"$folder/stderr" || status=$?
}

# files_of PACKAGE: the files and links in it, but documents.
files_of() {
    dpkg-deb --fsys-tarfile "$1" | tar -t | grep -v '/$' | grep -v '^\./usr/share/doc/' | LC_ALL=C sort | tr '\n' ' '
}

if command -v dpkg-deb >/dev/null && command -v make >/dev/null; then
    begin package
    mkdir "$room/packages"
    tools='' make_packages '' "$room/packages"
    wants_status 0
    for line in $(grep '^[EW]: ' "$folder/stdout" | sed 's/.*: //; s/ .*//'); do
        [ "$line" = copyright-without-copyright-notice ] || complaints+=("lintian complains of $line")
    done
    wants_clean
    package=$(ls "$room"/packages/bibtex-proved_*.deb)
    dpkg-deb -x "$package" root
    version=$("$program" --version | sed 's/.* //')
    [ "$(dpkg-deb -f "$package" Version)" = "$version" ] || complaints+=("the package is of version $(dpkg-deb -f "$package" Version), and the program of $version")
    newest=$(sed -n 's/^## \([0-9][0-9.]*\).*/\1/p' "$sources/CHANGELOG.md" | head -n 1)
    [ "$newest" = "$version" ] || complaints+=("the newest release of CHANGELOG.md is $newest, and the program is of $version")
    for file in bin/bibtex-{proved,search,explain,lint,confined} share/man/man1/bibtex-{proved,search,explain,lint,confined}.1.gz \
        share/bash-completion/completions/bibtex-{search,confined,proved} share/zsh/vendor-completions/_bibtex-search \
        share/fish/vendor_completions.d/bibtex-{search,confined,proved}.fish \
        share/bibtex-proved/editors/{btx.el,btx.lua,vscode/package.json} share/vim/vimfiles/compiler/bibtex-search.vim share/texmf/tex/luatex/btx/btx{,_letters}.lua \
        share/doc/bibtex-proved/{README.md,AS-INSTALLED.md,CHANGELOG.md,changelog.gz,copyright,contrib/README.md,examples/README.md} \
        share/doc/bibtex-proved/docs/{RULES,STYLES,SERVICES,DIFFERENCES,DECISIONS,ASSUMPTIONS,PROOFS,ARCHITECTURE,CONTRIBUTING}.md \
        share/doc/bibtex-proved/examples/{first/job.bbl,article/article.bst,article/edges.aux}; do
        [ -f "root/usr/$file" ] || complaints+=("the package has no $file")
    done
    grep -qi licence root/usr/share/doc/bibtex-proved/copyright || complaints+=('nothing is said of a licence')
    python3 "$here/links.py" root/usr/share/doc/bibtex-proved >found || complaints+=("$(cat found)")
    end

    # The same again: another umask, and a variable of the shell's that makes `cd` go elsewhere.
    begin package_is_the_same_again
    mkdir -p elsewhere/contrib
    (cd "$sources" && umask 077 && PATH=$room/no_lintian:$PATH CDPATH=$folder/work/elsewhere BIBTEX_FRONT=$programs \
        DEBFULLNAME=Nobody DEBEMAIL=nobody@example.org sh contrib/make-deb '' "$folder/work") >"$folder/stdout" 2>"$folder/stderr" || complaints+=("$(cat "$folder/stderr")")
    for each in "$room"/packages/*.deb; do
        cmp -s "$each" "./$(basename "$each")" || complaints+=("$each is another one the second time")
    done
    end

    begin package_runs
    dpkg-deb -x "$package" "$folder/root"
    cite nosuch
    status=0
    (
        unset BIBTEX_PROGRAM
        PATH=$folder/root/usr/bin exec bibtex-confined job
    ) </dev/null >"$folder/stdout" 2>"$folder/stderr" || status=$?
    wants_status 0
    wants_output ''
    wants_error ''
    wants_words job.blg "I didn't find a database entry for \"nosuch\""
    rm job.bbl
    for name in search explain; do
        status=0
        TEXMFCNF=$room/no_tex LD_LIBRARY_PATH=$room/no_tex "$folder/root/usr/bin/bibtex-$name" -explain job </dev/null >"$folder/stdout" 2>"$folder/stderr" || status=$?
        wants_status 0
        wants_words "$folder/stdout" "I didn't find a database entry for \"nosuch\""
        [ "$name" = explain ] || [ -f job.bbl ] || complaints+=('there is no list')
    done
    for page in "$folder"/root/usr/share/man/man1/*.gz; do
        for named in $(gzip -dc "$page" | sed -n 's/^\.BR \(bibtex[a-z\\-]*\) (1).*/\1/p' | tr -d '\\'); do
            [ -f "$folder/root/usr/share/man/man1/$named.1.gz" ] || complaints+=("$(basename "$page") names $named(1), which isn't there")
        done
    done
    end

    # The front end is offered as `bibtex`, and TeX's own stays the one that is chosen; without TeX's it is this one.
    if command -v update-alternatives >/dev/null && update-alternatives --help | grep -q -- --root; then
        begin package_offers_bibtex
        dpkg-deb -R "$package" root
        mv root/DEBIAN scripts
        mkdir bin root/etc root/var root/var/lib root/var/lib/dpkg root/var/lib/dpkg/alternatives root/etc/alternatives root/var/log
        printf '#!/bin/sh\nexec %q --root %q --log /dev/null "$@"\n' "$(command -v update-alternatives)" "$PWD/root" >bin/update-alternatives
        chmod +x bin/update-alternatives
        PATH=$PWD/bin:$PATH scripts/postinst configure >/dev/null 2>"$folder/stderr" || complaints+=("postinst: $(cat "$folder/stderr")")
        [ "$(readlink root/etc/alternatives/bibtex)" = /usr/bin/bibtex-search ] || complaints+=("bibtex is $(readlink root/etc/alternatives/bibtex)")
        : >root/usr/bin/bibtex.original
        chmod +x root/usr/bin/bibtex.original
        bin/update-alternatives --install /usr/bin/bibtex bibtex /usr/bin/bibtex.original 100 >/dev/null 2>&1
        [ "$(readlink root/etc/alternatives/bibtex)" = /usr/bin/bibtex.original ] || complaints+=("beside the original bibtex is $(readlink root/etc/alternatives/bibtex)")
        PATH=$PWD/bin:$PATH scripts/prerm upgrade 9.9 >/dev/null 2>&1 || complaints+=('prerm upgrade failed')
        [[ $(bin/update-alternatives --list bibtex) == *bibtex-search* ]] || complaints+=('an upgrade takes the choice away')
        PATH=$PWD/bin:$PATH scripts/prerm remove >/dev/null 2>&1 || complaints+=('prerm remove failed')
        [ "$(bin/update-alternatives --list bibtex)" = /usr/bin/bibtex.original ] || complaints+=('the package is offered after it was removed')
        end
    else
        echo 'left out: the choice of bibtex (without update-alternatives --root)'
    fi

    # The library's packages, where it is built.
    if [ -f "$sources/library/out/libbtx.so.1" ]; then
        begin packages_of_the_library
        cp "$room"/packages/*.deb .
        [ "$(ls ./*.deb | sed 's/_.*//' | tr '\n' ' ')" = './bibtex-proved ./libbtx-dev ./libbtx1 ./python3-btx ' ] || complaints+=("the packages are $(ls ./*.deb)")
        dpkg-deb -x ./libbtx1_*.deb root
        dpkg-deb -x ./libbtx-dev_*.deb root
        [[ $(files_of ./libbtx1_*.deb) =~ ^(\./usr/lib/[a-z0-9_-]*/libbtx\.so\.[0-9.]*\ )*$ ]] || complaints+=("libbtx1 has $(files_of ./libbtx1_*.deb)")
        [ "$(dpkg-deb -f ./libbtx-dev_*.deb Depends)" = "libbtx1 (= $version)" ] || complaints+=("libbtx-dev depends on $(dpkg-deb -f ./libbtx-dev_*.deb Depends)")
        printf '#include <btx.h>\n#include <stdio.h>\nint main(void) {\n    void *volatile calls[] = {(void *)btx_needs, (void *)btx_run};\n    printf("%%d\\n", calls[0] != calls[1]);\n}\n' >uses.c
        there=$(dirname root/usr/lib/*/libbtx.a)
        for kind in '' -static; do
            gcc -Iroot/usr/include $kind uses.c -L"$there" -lbtx -o uses 2>"$folder/stderr" &&
                [ "$(LD_LIBRARY_PATH=$there ./uses)" = 1 ] || complaints+=("a program isn't built over it ($kind): $(head -c 500 "$folder/stderr")")
        done
        grep -qx "libdir=/${there#root/}" "$there/pkgconfig/btx.pc" || complaints+=("btx.pc is $(cat "$there/pkgconfig/btx.pc")")
        end

        begin package_for_python
        dpkg-deb -x "$room"/packages/libbtx1_*.deb root
        dpkg-deb -x "$room"/packages/python3-btx_*.deb root
        there=$(dirname root/usr/lib/*/libbtx.so.1)
        printf 'import btx\nprint(btx.run_in(".", "job").report.status)\n' >runs.py
        said=$(LD_LIBRARY_PATH=$there PYTHONPATH=root/usr/lib/python3/dist-packages env -u BTX_LIBRARY python3 runs.py 2>&1)
        [ "$said" = 0 ] || complaints+=("a job in Python gives $said")
        end
    else
        echo "left out: the library's packages (there is no library/out/libbtx.so.1)"
    fi

    begin package_without_a_maker
    mkdir bin
    printf '#!/bin/sh\nexit 1\n' >bin/git
    chmod +x bin/git
    status=0
    env -u DEBFULLNAME -u DEBEMAIL PATH="$PWD/bin:$PATH" BIBTEX_FRONT="$programs" "$sources/contrib/make-deb" </dev/null >"$folder/stdout" 2>"$folder/stderr" || status=$?
    wants_status 1
    wants_error_with 'nobody is named as the maker of the package: set DEBFULLNAME, or git config user.name'
    [ -z "$(ls ./*.deb 2>/dev/null)" ] || complaints+=('there is a package')
    end

    # No word of the caller's becomes a field of the package, and no variable of the shell's another folder.
    for version in $'1.0\nEssential: yes' '1.0 x' '1_0' v1 '1/../0'; do
        begin "package_version_$((passed + failed))"
        make_packages "$version"
        wants_status 1
        wants_error_with make-deb:
        [ -z "$(find . -name '*.deb')" ] || complaints+=('there is a package')
        end
    done

    begin package_without_a_front_end
    programs=/nosuch make_packages
    wants_status 1
    wants_error_with 'there is no /nosuch/bibtex-search: run make front first'
    end
else
    echo 'left out: the packages (needs dpkg-deb and make)'
fi
