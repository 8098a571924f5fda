# What goes to a terminal can't act on it: control bytes, C1 (raw and in UTF-8) and marks that turn the direction of a text are shown as `?`, wherever they come
# from. The .blg keeps the bytes.

# Bytes that act on some terminal: a title, a colour, a bell, a form feed, C1 raw and in UTF-8, marks of direction, backspaces.
evils=($'\e]0;TITLE\a' $'\e[2J' $'\x9b31m' $'\xc2\x9b31m' $'\xe2\x80\xae' $'\xe2\x81\xa6' $'\xe2\x80\x8f' $'a\bb' $'\f' $'\x7f' $'\x01')

# wants_safe FILE: nothing in it acts on a terminal, but colours of the front end's own.
wants_safe() {
    python3 "$here/unsafe.py" "$1" >"$folder/unsafe" || complaints+=("what was printed has $(cat "$folder/unsafe")")
}

# shows WORD..: bibtex-search on a terminal prints something, which goes after what was shown before.
shows() {
    TERM=xterm on_terminal 80 "$@" >"$folder/one" || true
    [ -s "$folder/one" ] || complaints+=('nothing is printed')
    cat "$folder/one" >>"$folder/shown"
}

for evil in "${evils[@]}"; do
    begin "terminal_keys_$((passed + failed))"
    printf '\\citation{k%s,l}\n\\bibdata{d}\n\\bibstyle{s}\n' "$evil" >job.aux
    printf '@odd{l%s, title = {%s} # z%s}\n@misc{l %s 1}\n' '' "$evil" "$evil" "$evil" >d.bib
    shows job
    shows -no-explain job
    shows -terse job
    grep -qF "$evil" job.blg || complaints+=('the log has other bytes than the job')
    wants_safe "$folder/shown"
    end

    begin "terminal_names_$((passed + failed))"
    printf '\\citation{k}\n\\bibdata{d%s,d}\n\\bibstyle{s%s}\n\\@input{x%s.aux}\n' "$evil" "$evil" "$evil" >job.aux
    shows job
    shows -no-explain job
    mkdir "folder$evil.bib"
    printf '\\citation{k}\n\\bibdata{folder%s}\n\\bibstyle{s}\n' "$evil" >job.aux
    shows job
    wants_safe "$folder/shown"
    end

    begin "terminal_style_$((passed + failed))"
    printf 'ENTRY {title}{}{} FUNCTION {misc}{} READ FUNCTION {f%s} {"x%sx" warning$ "x%s" top$ #1 "%s" * pop$ nosuch%s}\nEXECUTE {f%s}\n%s\n' \
        "$evil" "$evil" "$evil" "$evil" "$evil" "$evil" "$evil" >s.bst
    shows job
    shows -no-explain job
    wants_safe "$folder/shown"
    end

    begin "terminal_words_$((passed + failed))"
    for words in "job$evil" "-nosuch$evil" "-line=$evil" "-text=$evil" "-budget=$evil" "--$evil=1" "-log-room=$evil" "-explain-only|job$evil" "nosuch$evil/job" "a|b$evil"; do
        IFS='|' read -r -d '' -a split < <(printf '%s\0' "$words") || true
        shows "${split[@]}"
    done
    cp job.aux "job$evil.aux"
    cp job.aux "dir$evil.aux"
    mkdir "dir$evil.bbl"
    shows "job$evil"
    shows "dir$evil"
    ln -s "$search" "program$evil"
    LD_LIBRARY_PATH=$libraries TERM=xterm python3 "$here/on_terminal.py" 80 "./program$evil" -nosuch >>"$folder/shown" || true
    LD_LIBRARY_PATH=$libraries TERM=xterm python3 "$here/on_terminal.py" 80 "./program$evil" -version >>"$folder/shown" || true
    wants_safe "$folder/shown"
    end
done

# Each mark that turns the direction of a text or ends a line.
begin terminal_marks
for mark in $'\xd8\x9c' $'\xe2\x80\x8e' $'\xe2\x80\x8f' $'\xe2\x80\xa8' $'\xe2\x80\xa9' $'\xe2\x80\xaa' $'\xe2\x80\xab' \
    $'\xe2\x80\xac' $'\xe2\x80\xad' $'\xe2\x80\xae' $'\xe2\x81\xa6' $'\xe2\x81\xa7' $'\xe2\x81\xa8' $'\xe2\x81\xa9'; do
    printf '\\citation{k}\n\\bibdata{n%so}\n\\bibstyle{s}\n' "$mark" >job.aux
    shows job
    wants_words "$folder/one" 'n?o.bib'
done
wants_safe "$folder/shown"
end

# TeX's own library warns of names that it can't read: it is not to print their bytes.
begin terminal_names_that_tex_warns_of
printf '\\citation{k}\n\\bibdata{$\e[2J,${\e]0;X\a,$\a}\n\\bibstyle{$\xc2\x9b31m}\n' >job.aux
shows job
wants_safe "$folder/shown"
end

# Letters of other scripts are shown as they are.
begin terminal_and_letters
printf '\\citation{müller:öl,田中}\n\\bibdata{d}\n\\bibstyle{s}\n' >job.aux
TERM=xterm on_terminal 80 job >shown || true
wants_words shown 'müller:öl'
wants_words shown '田中'
end

# Where standard output is a file, it has the log's bytes; standard error on a terminal is safe then too.
begin bytes_in_a_pipe
printf '\\citation{k\e[2J}\n\\bibdata{d}\n\\bibstyle{s}\n' >job.aux
run_search -no-explain job
cmp -s <(log_of job.blg) <(log_of "$folder/stdout") || complaints+=('what was printed is not the log')
end

begin explanations_in_a_pipe
printf '\\citation{k\e[2J}\n\\bibdata{d}\n\\bibstyle{s}\n' >job.aux
run_search -explain job
wants_safe "$folder/stdout"
end

# A narrow terminal, one of no size, and ones that know little.
for columns in 0 1 7 20 80 1000 65535; do
    begin "terminal_of_${columns}_columns"
    write_explained
    TERM=xterm on_terminal $columns job >shown || true
    wants_safe shown
    wants_words shown "couldn't open database file e.bib"
    wants_words shown 'what to do'
    [ "$(wc -c <shown)" -lt 100000 ] || complaints+=("$(wc -c <shown) bytes were printed")
    end
done

begin colours
cite nosuch
TERM=xterm on_terminal 80 job >shown
grep -q $'\e\[' shown || complaints+=('there is no colour')
wants_safe shown
for setting in TERM=dumb TERM= NO_COLOR=1; do
    TERM=xterm env "$setting" LD_LIBRARY_PATH="$libraries" python3 "$here/on_terminal.py" 80 "$search" job >plain
    wants_words plain "I didn't find a database entry"
    wants_words plain 'what to do'
    ! grep -q $'\e' plain || complaints+=("with $setting there are colours")
done
env -u TERM LD_LIBRARY_PATH="$libraries" python3 "$here/on_terminal.py" 80 "$search" job >plain
! grep -q $'\e' plain || complaints+=('without TERM there are colours')
run_search -explain job
! grep -q $'\e' "$folder/stdout" || complaints+=('a file has colours')
end

# An empty NO_COLOR counts as none.
begin colours_and_an_empty_setting
cite nosuch
NO_COLOR= TERM=xterm on_terminal 80 job >shown
grep -q $'\e\[' shown || complaints+=('there is no colour')
end

# The carriage return before the end of a line is a part of that, and nothing to be shown.
begin lines_with_carriage_returns
printf '@misc{k,\r\n  title = {A},\r\n  note 1}\r\n' >d.bib
on_terminal 80 job >"$folder/found" || true
grep -q 'note 1}' "$folder/found" || complaints+=("the line isn't shown: $(cat -v "$folder/found")")
! grep 'note 1}' "$folder/found" | grep -q '?' || complaints+=("it shows $(cat -v "$folder/found")")
end

# TeX's search library prints names as they are, where it may not read a file: it isn't asked for such a name, and what it prints of others goes nowhere.
if has kpsewhich && another_user; then
    begin terminal_names_in_the_library
    chmod 755 .
    chmod 666 job.* d.bib s.bst
    for evil in "${evils[@]}"; do
        mkdir -p t/sub
        : >"t/sub/d$evil.bib"
        : >"t/sub/s$evil.bst"
        chmod 0 t/sub/*
        printf '\\citation{k}\n\\bibdata{d%s,{d}%s}\n\\bibstyle{s}\n' "$evil" "$evil" >job.aux
        touch job.bbl job.blg
        chmod 666 job.bbl job.blg
        BIBINPUTS=.:t// run_as_another -terse job
        wants_safe "$folder/stderr"
        ln -sf search "$room/bibtex-lint"
        LD_LIBRARY_PATH=$libraries BSTINPUTS=.:t// setpriv --reuid 65534 --regid 65534 --clear-groups "$room/bibtex-lint" "s$evil" </dev/null >"$folder/stdout" 2>"$folder/stderr" || true
        wants_safe "$folder/stderr"
        rm -rf t
    done
    end
    begin terminal_says_nothing_of_the_library
    mkdir -p t/sub
    mv d.bib t/sub
    chmod 0 t/sub/d.bib
    chmod 755 .
    touch job.bbl job.blg
    chmod 666 job.* s.bst
    BIBINPUTS=.:t// run_as_another -terse job
    wants_error ''
    end
else
    echo 'left out: names that TeX Live'"'"'s search library prints (needs TeX, root and setpriv)'
fi
