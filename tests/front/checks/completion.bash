# Completion of options: each shell can read its file, and each option that a program's help names is completed, and no other.

completions=$sources/contrib/completions

# options_of PROGRAM: the options that its help names, without hyphens and without letters alone.
options_of() {
    "$1" --help | grep -oE -- '(^|[ ,])--?[a-z][a-z-]+' | sed 's/^[ ,]*-*//' | LC_ALL=C sort -u
}

# complete_in_bash WORD..: what bash offers for the last word.
complete_in_bash() {
    bash -c 'source "$1"; compopt() { :; }; shift; COMP_WORDS=("$@"); COMP_CWORD=$(($# - 1)); _bibtex "$1"; printf "%s\n" "${COMPREPLY[@]}"' \
        - "$completions/bibtex-search.bash" "$@"
}

# wants_completed WANTED WORD..: bash offers these words, in any order.
wants_completed() {
    local found
    found=$(complete_in_bash "${@:2}" | sed "/^$/d" | LC_ALL=C sort | tr '\n' ' ')
    [ "$found" = "${1:+$1 }" ] || complaints+=("for ${*:2} bash offers '$found', not '$1'")
}

for name in search confined lint proved; do
    case $name in
    proved) path=$program ;;
    lint) path=$room/bibtex-lint && ln -sf "$search" "$path" ;;
    *) path=$programs/bibtex-$name ;;
    esac
    wanted=$(options_of "$path")

    begin "completion_of_bibtex-${name}_in_bash"
    found=$(complete_in_bash "bibtex-$name" - | sed 's/^-*//; s/=$//' | LC_ALL=C sort)
    [ "$found" = "$wanted" ] || complaints+=("bash offers $found, and the help has $wanted")
    end

    if command -v fish >/dev/null; then
        begin "completion_of_bibtex-${name}_in_fish"
        hyphens=--
        [ "$name" != search ] || hyphens=-
        found=$(HOME=$folder fish --no-config -c "source '$completions/bibtex-search.fish'; complete -C 'bibtex-$name $hyphens'" | sed 's/\t.*//; s/^-*//; s/=$//' | LC_ALL=C sort -u)
        [ "$found" = "$wanted" ] || complaints+=("fish offers $found, and the help has $wanted")
        end
    else
        echo 'left out: completion in fish (it is not there)'
    fi

    if command -v zsh >/dev/null; then
        begin "completion_of_bibtex-${name}_in_zsh"
        zsh -n "$completions/_bibtex-search" 2>"$folder/stderr" || complaints+=("zsh can't read it: $(cat "$folder/stderr")")
        found=$(zsh -fc "_arguments() { print -l -- \"\$@\" }; service=bibtex-$name; source '$completions/_bibtex-search'" | sed -n 's/^\(([^)]*)\)\{0,1\}--*\([a-z-]*\)=\{0,1\}\[.*/\2/p' | LC_ALL=C sort -u)
        [ "$found" = "$wanted" ] || complaints+=("zsh offers $found, and the help has $wanted")
        end
    else
        echo 'left out: completion in zsh (it is not there)'
    fi
done

# The languages that completion offers are those that the program names where it knows none of that name.
begin languages_that_are_completed
run_search -letters=nosuch job
named=$(sed -n "s/.*-letters is \(.*\), not 'nosuch'.*/\1/p" "$folder/stderr" | tr -d ',' | tr ' ' '\n' | grep -vxE 'or|one|of|and' | LC_ALL=C sort | tr '\n' ' ')
wants_completed "${named% }" bibtex-search -letters =
end

begin completion_of_values_and_jobs
mkdir sub
cp job.aux other.aux
wants_completed 'auto bytes utf8' bibtex-search -text =
wants_completed utf8 bibtex-search --text u
wants_completed utf8 bibtex-confined job --text = u
wants_completed '' bibtex-search -budget ''
wants_completed '-budget=' bibtex-search -terse -bu
wants_completed '--limit-clock=' bibtex-confined job --limit-c
wants_completed 'job.aux other.aux sub' bibtex-search ''
wants_completed other.aux bibtex-search -terse o
wants_completed sub bibtex-proved --dir = s
wants_completed 's.bst sub' bibtex-lint s
wants_completed 'job.aux' bibtex-lint --job j
end
