# make            proves the program and builds it; prints each crate as it is done, with the minutes so far
# make library    proves and builds the library for C, library/out; make install-library installs it alone
# make wheel      builds the package for Python with the library in it, python/dist; it needs make library, and Python's setuptools and wheel
# make front      builds the front end, front/out/bibtex-search and front/out/bibtex-confined, over the proved library; it needs cargo
#                 and some crates, which `contrib/setup build` installs on Debian
# make web        builds the library as WebAssembly, web/npm, and the page that runs it, web/out/btx.html; it needs make library, binaryen and Node
# make install    puts the program, the front end, their man pages, completion, the documents, Python's package, what editors and LuaTeX need, and, where it is
#                 built, the library below PREFIX
#                 (DESTDIR before it, where a package is made). The program is installed as NAME, so that it doesn't hide TeX's own bibtex:
#                 contrib/README.md says why
# make uninstall  takes them away again
# make check      the whole gate: every proof, test and end-to-end check from nothing
# make try        builds the program, the library and the front end of the tree as it stands, without any proof, in out/try; it installs nothing
# make book       weaves the book of definitions, docs/book/out/book.html and book.md, and checks it; it needs no kit. After make web its examples can be run in it.
#                 Where chromium is it prints book.pdf, too

PREFIX = /usr/local
DESTDIR =
NAME = bibtex-proved
# (BIBTEX_PROGRAM names another program than the built one, here as in contrib/make-deb, examples/check and the tests)
bin = $(DESTDIR)$(PREFIX)/bin
share = $(DESTDIR)$(PREFIX)/share
man = $(share)/man/man1
doc = $(share)/doc/bibtex-proved
bash = $(share)/bash-completion/completions
zsh = $(share)/zsh/site-functions
fish = $(share)/fish/vendor_completions.d
shared = $(share)/bibtex-proved
vim = $(share)/vim/vimfiles
luatex = $(share)/texmf/tex/luatex/btx
# The folder below PREFIX in which the system's Python looks for packages; none where it looks in none.
python = $(shell /usr/bin/python3 -c 'import site; print(next((it for it in site.getsitepackages() if it.startswith("$(PREFIX)/lib")), ""))' 2>/dev/null)
program = $(or $(BIBTEX_PROGRAM),crates/bibtex/out/bibtex)
front = front/out
page = $(subst -,\\-,$(NAME))
title = $(shell printf '%s' '$(page)' | tr a-z A-Z)
# The commands whose options are completed, beside bibtex-search.
completed = bibtex-confined bibtex-lint bibtex-proved

.PHONY: all check library wheel front try web book install install-program install-front install-completion install-documents install-python install-editors install-library uninstall

all:
	contrib/build

check:
	bash .ci/run

library:
	cd crates/btx_c && rt lib
	$(MAKE) --no-print-directory -C library

wheel:
	python/build

front:
	front/build

try:
	contrib/try

web:
	web/build
	python3 -B web/page/build.py

book:
	python3 -B docs/book/make.py --pdf

install: install-program install-front install-completion install-documents install-python install-editors $(if $(wildcard library/out/libbtx.so.1),install-library)

install-program:
	@test -x '$(program)' || { echo 'there is no $(program): run make first' >&2; exit 1; }
	install -d '$(bin)' '$(man)'
	install -m 755 '$(program)' '$(bin)/$(NAME)'
	sed -e 's/^\.TH BIBTEX /.TH $(title) /' -e 's/^bibtex \\- /$(page) \\- /' -e 's/^\.B bibtex\( \|$$\)/.B $(page)\1/' docs/bibtex.1 | install -m 644 /dev/stdin '$(man)/$(NAME).1'

install-front:
	@test -x '$(front)/bibtex-search' -a -x '$(front)/bibtex-confined' || { echo 'there is no $(front)/bibtex-search: run make front first' >&2; exit 1; }
	install -d '$(bin)' '$(man)'
	install -m 755 '$(front)/bibtex-search' '$(front)/bibtex-confined' '$(bin)'
	ln -sf bibtex-search '$(bin)/bibtex-explain'
	ln -sf bibtex-search '$(bin)/bibtex-lint'
	install -m 644 docs/bibtex-search.1 docs/bibtex-confined.1 docs/bibtex-explain.1 docs/bibtex-lint.1 '$(man)'

install-completion:
	install -d '$(bash)' '$(zsh)' '$(fish)'
	install -m 644 contrib/completions/bibtex-search.bash '$(bash)/bibtex-search'
	install -m 644 contrib/completions/_bibtex-search '$(zsh)'
	install -m 644 contrib/completions/bibtex-search.fish '$(fish)'
	for name in $(completed); do ln -sf bibtex-search '$(bash)'/$$name && ln -sf bibtex-search.fish '$(fish)'/$$name.fish || exit 1; done

# The documents stand in the folders that they have in the sources, so that their links work; AS-INSTALLED.md says what they name that isn't installed.
install-documents:
	install -d '$(doc)/docs' '$(doc)/contrib'
	install -m 644 README.md CHANGELOG.md contrib/AS-INSTALLED.md '$(doc)'
	install -m 644 docs/*.md '$(doc)/docs'
	install -m 644 contrib/README.md '$(doc)/contrib'
	find examples -type f ! -name '*.pyc' ! -path examples/first/run | LC_ALL=C sort | while IFS= read -r file; do install -D -m 644 "$$file" '$(doc)'/"$$file" || exit 1; done

# Python's package lies beside the program's folder, where bibtex-lint looks for it; a line in a folder of Python's own makes `python3 -m btx` find it, too.
# Its modules are compiled once, where it isn't for a package: whoever starts it may not write there, and would wait for that each time.
install-python:
	install -d '$(shared)/python/btx'
	install -m 644 python/btx/*.py python/btx/py.typed '$(shared)/python/btx'
	$(if $(DESTDIR),,test ! -x /usr/bin/python3 || /usr/bin/python3 -m compileall -q '$(shared)/python/btx')
	$(if $(wildcard library/out/libbtx.so.1),ln -sf ../../../../lib/libbtx.so.1 '$(shared)/python/btx/libbtx.so.1')
	$(if $(python),install -d '$(DESTDIR)$(python)' && echo '$(PREFIX)/share/bibtex-proved/python' >'$(DESTDIR)$(python)/bibtex-proved.pth')

install-editors:
	install -d '$(vim)/compiler' '$(luatex)' '$(shared)/editors/vscode'
	install -m 644 contrib/vim/compiler/*.vim '$(vim)/compiler'
	install -m 644 lua/btx*.lua '$(luatex)'
	install -m 644 contrib/editors/btx.el contrib/editors/btx.lua '$(shared)/editors'
	install -m 644 contrib/editors/vscode/extension.js contrib/editors/vscode/language.json contrib/editors/vscode/package.json '$(shared)/editors/vscode'

install-library:
	$(MAKE) --no-print-directory -C library install PREFIX='$(PREFIX)' DESTDIR='$(DESTDIR)'

uninstall:
	rm -f '$(bin)/$(NAME)' '$(bin)/bibtex-search' '$(bin)/bibtex-confined' '$(bin)/bibtex-explain' '$(bin)/bibtex-lint'
	rm -f '$(man)/$(NAME).1' '$(man)/bibtex-search.1' '$(man)/bibtex-confined.1' '$(man)/bibtex-explain.1' '$(man)/bibtex-lint.1'
	rm -f '$(bash)/bibtex-search' '$(zsh)/_bibtex-search' '$(fish)/bibtex-search.fish'
	for name in $(completed); do rm -f '$(bash)'/$$name '$(fish)'/$$name.fish; done
	rm -rf '$(doc)' '$(shared)' '$(luatex)'
	rm -f '$(vim)/compiler/bibtex-search.vim' $(if $(python),'$(DESTDIR)$(python)/bibtex-proved.pth')
	if test -f library/Makefile; then $(MAKE) --no-print-directory -C library uninstall PREFIX='$(PREFIX)' DESTDIR='$(DESTDIR)'; fi
