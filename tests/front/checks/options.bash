# The original's options in each form that getopt_long_only takes: one hyphen or two, each beginning that no other option has, a value after '=' or in the next word.
# Where the original is installed, it takes them too.

# parents: a parent that two entries name, and that isn't cited: it is listed, unless it takes three.
parents() {
    printf '%s\n' '\citation{a,b}' '\bibdata{d}' '\bibstyle{s}' >job.aux
    printf '%s\n' '@misc{a, crossref = {p}}' '@misc{b, crossref = {p}}' '@misc{p, title = {P}}' >d.bib
    use_style 'FUNCTION {f} {cite$ write$ newline$} ITERATE {f}'
}

# beginnings NAME SHORTEST: the name, and its prefixes, down to SHORTEST letters.
beginnings() {
    local length
    for ((length = $2; length <= ${#1}; length++)); do
        echo "${1:0:length}"
    done
}

# original_lists TEXT WORD..: the original, called with these words, lists this.
original_lists() {
    has bibtex || return 0
    rm -f job.bbl
    bibtex "${@:2}" >original 2>&1 || true
    wants_text job.bbl "$1"
    rm -f job.bbl
}

# takes_number FORM..: the words of each form ask for three of them.
takes_number() {
    local form
    for form in "$@"; do
        rm -f job.bbl
        run_search $form job
        wants_status 0
        wants_text job.bbl $'a\nb\n'
        original_lists $'a\nb\n' $form job
    done
}

for name in $(beginnings min-crossrefs 1); do
    begin "option_$name"
    parents
    takes_number "-$name=3" "--$name=3" "-$name 3" "--$name 3"
    end
done

begin option_behind_the_job
parents
run_search job -min 3
wants_text job.bbl $'a\nb\n'
original_lists $'a\nb\n' job -min 3
end

# A cited key without an entry is a warning; with -strict it ends as an error does.
begin option_strict
printf '%s\n' '\citation{k,nosuch}' '\bibdata{d}' '\bibstyle{s}' >job.aux
printf '%s\n' '@misc{k}' >d.bib
use_style 'FUNCTION {f} {cite$ write$ newline$} ITERATE {f}'
run_search job
wants_status 0
run_search -strict job
wants_status 2
wants_text job.bbl $'k\n'
sed -i 's/,nosuch//' job.aux
run_search --strict job
wants_status 0
end

begin option_given_twice
parents
run_search -min-crossrefs=1 --min=3 job
wants_text job.bbl $'a\nb\n'
original_lists $'a\nb\n' -min-crossrefs=1 --min=3 job
end

for name in $(beginnings terse 1); do
    begin "option_$name"
    for word in "-$name" "--$name"; do
        rm -f job.bbl
        run_search "$word" job
        wants_status 0
        wants_output ''
        wants_text job.bbl $'a\n'
    done
    end
done

# prints NAME EXPRESSION: each form of this option prints a text whose first line is like this, and no job is run.
prints() {
    local name word
    for name in $(beginnings "$1" 1); do
        begin "option_$name"
        for word in "-$name" "--$name"; do
            run_search "$word"
            wants_status 0
            wants_error ''
            head -n 1 "$folder/stdout" | grep -q -- "$2" || complaints+=("$word prints $(head -n 1 "$folder/stdout")")
            wants_files d.bib job.aux s.bst
        done
        end
    done
}

prints help '^Usage: bibtex-search '
prints version 'bibtex-search'

# Numbers as the original reads them: digits after whitespace and a sign, up to the first other sign.
for value in 3 03 +3 ' 3' 3x 3.9 '3 4'; do
    begin "number_$((passed + failed))"
    parents
    run_search "-min-crossrefs=$value" job
    wants_status 0
    wants_text job.bbl $'a\nb\n'
    original_lists $'a\nb\n' "-min-crossrefs=$value" job
    end
done

for value in -1 0 x '' -x; do
    begin "number_$((passed + failed))"
    parents
    run_search "-min-crossrefs=$value" job
    wants_status 0
    wants_text job.bbl $'a\nb\np\n'
    original_lists $'a\nb\np\n' "-min-crossrefs=$value" job
    end
done

# Very large numbers are taken as very large ones.
begin number_that_is_large
parents
for value in 2147483647 2147483648 99999999999999999999; do
    run_search "-min-crossrefs=$value" job
    wants_status 0
    [ "$(head -n 2 job.bbl)" = $'a\nb' ] || complaints+=("the list is $(cat job.bbl)")
done
end

# What the original refuses is refused, with status 1 and nothing touched.
for words in '' 'job job' '-nosuch job' '-nosuch=1 job' '-terse=yes job' '---terse job' '-dir . job' '--dir=. job' 'job -budget' 'job -min-crossrefs' '-help=1 job' '-=3 job' '--=3 job'; do
    begin "refused_$((passed + failed))"
    leave_old
    run_search $words
    wants_status 1
    wants_error_with bibtex-search
    wants_old
    end
done

# After -- stand jobs alone; a hyphen by itself is a job.
begin words_behind_two_hyphens
mv job.aux ./-terse.aux
run_search -- -terse
wants_first ./-terse
mv ./-terse.aux ./-.aux
run_search -
wants_status 0
wants_text ./-.bbl $'a\n'
end

# Of our own options no beginning takes one of the original's away.
begin own_options_leave_the_original_its_beginnings
for word in -t -te -h -v -m=2 -mi=2; do
    run_search "$word" job
    wants_status 0
done
end

for words in '-budget=3' '--budget 3' '-bud=3' '-bu 3'; do
    begin "own_option_$((passed + failed))"
    run_search $words job
    wants_status 4
    wants_text job.bbl ''
    end
done

for words in '-line=19' '-line=1001' '-line=x' '-text=latin1' '-entry-max=0' '-global-max=1000001' '-budget=x' '-budget=-1' '-log-room=x'; do
    begin "own_number_$((passed + failed))"
    leave_old
    run_search $words job
    wants_status 1
    wants_error_with bibtex-search
    wants_error_with "${words#*=}"
    wants_old
    end
done

# A room is 1 TB at most, in each unit.
for words in '-log-room=1025G' '-list-room=1048577M' '-log-room=1073741825K' '-list-room=1099511627777'; do
    begin "room_past_its_range_$((passed + failed))"
    leave_old
    run_search "$words" job
    wants_status 1
    wants_error_with "the value of ${words%=*} is a number from 0 to"
    wants_old
    end
done

# bibtex8's options: -M is min-crossrefs, and the sizes of its tables are nothing that is needed here.
for words in '-M 3' '-M=3' '-M3'; do
    begin "bibtex8_minimum_$((passed + failed))"
    parents
    run_search $words job
    wants_status 0
    wants_text job.bbl $'a\nb\n'
    end
done

# After -M stands nothing but its number.
begin bibtex8_minimum_with_another_letter
run_search -Mx3 job
wants_refusal -Mx3
end

for words in '-B' '-H' '-W' '--big' '--huge' '--wolfgang' '--mstrings 200000' '--mcites=5000' '--mpool 1000000'; do
    begin "bibtex8_size_$((passed + failed))"
    run_search $words job
    wants_status 0
    wants_text job.bbl $'a\n'
    wants_error_with bibtex-search
    [ "$(wc -l <"$folder/stderr")" -eq 1 ] || complaints+=("standard error is $(cat "$folder/stderr")")
    end
done

begin environment_is_no_option
job=x budget=1 line=1 terse=yes min_crossrefs=1 run_search job
wants_first job
end
