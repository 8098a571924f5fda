//! What bibtex-lint writes, worked by hand.

use super::*;
use crate::lint_warnings::read;

fn said(notes: &str) -> String {
    let read = read(notes.as_bytes(), b"s.bst");
    said_of(&read.warnings[0], &Code::new(b"")).0
}

// Each of these notes has these words.
fn all_are_said(rows: &[(&str, &str)]) {
    for (notes, wanted) in rows {
        assert_eq!(said(notes), *wanted);
    }
}

#[test]
fn each_fault_has_its_words() {
    let rows = [
        (
            "warning kind first\nnext write$\ndepth 1\noperand 0 text mewf\nwants text\nname field title\nmissing title\nat in 2 0 1 f\n",
            "`write$` takes TEXT, and the field `title` may be missing here",
        ),
        (
            "warning kind first\nnext +\noperand 1 text f\nwants integer\nname variable s\nat in 2 0 1 f\n",
            "`+` takes NUMBER NUMBER, and its first NUMBER is a string here, the value of the variable `s`",
        ),
        (
            "warning kind first\nnext :=\noperand 0 integer 0 0\nwants function\nat in 2 0 1 f\n",
            "`:=` takes VALUE 'VARIABLE, and its VARIABLE is the integer 0 here",
        ),
        (
            "warning kind first\nnext if$\noperand 2 text f\nwants integer\nat in 2 0 1 f\n",
            "`if$` takes NUMBER {THEN} {ELSE}, and its NUMBER is a string here",
        ),
        (
            "warning stack first\nnext *\ndepth 1\nat in 2 0 1 f\n",
            "`*` takes TEXT TEXT, and there may be 1 literal on the stack here",
        ),
        (
            "warning equal first\nnext =\noperand 0 text mf\nname field year\nmissing year\nat in 2 0 1 f\n",
            "`=` compares two strings or two numbers, and the field `year` may be missing here",
        ),
        (
            "warning variable first\nnext :=\noperand 0 function skip$\nat in 2 0 1 f\n",
            "`:=` assigns to a variable, and the function `skip$` is none",
        ),
        ("warning entry first\nnext cite$\nat in 2 0 1 f\n", "`cite$` needs a current entry, and EXECUTE has none"),
        (
            "warning left first\nnext call.type$\ndepth 2\nitem ITERATE 9 call.type$\n",
            "ITERATE {call.type$} may leave literals on the stack: 2 where it was met first",
        ),
    ];
    all_are_said(&rows);
}

#[test]
fn the_test_of_a_loop_has_its_words() {
    let rows = [
        (
            "warning kind first\nnext while$\ndepth 1\nat in 2 0 1 f\n",
            "the test of this `while$` has to leave one integer, and nothing else: it may leave something else here",
        ),
        (
            "warning stack first\nnext while$\ndepth 0\nat in 2 0 1 f\n",
            "`while$` takes {TEST} {BODY}, and there may be no literal on the stack here",
        ),
        (
            "warning kind first\nnext while$\noperand 0 integer 0 0\nwants function\nat in 2 0 1 f\n",
            "`while$` takes {TEST} {BODY}, and its BODY is the integer 0 here",
        ),
    ];
    all_are_said(&rows);
}

#[test]
fn a_field_that_stands_for_a_number_has_its_advice() {
    let said = |next: &str, style: &str| {
        let operand = "operand 1 text mewf\nwants integer\nname field year\nmissing year\nat in 3 0 3 f\n";
        let found = read(format!("warning kind first\nnext {next}\n{operand}").as_bytes(), b"s.bst");
        assert_eq!(conditions_of(&found.warnings[0]), None);
        said_of(&found.warnings[0], &Code::new(style.as_bytes()))
    };
    let of =
        |field: &str| format!("warning kind first\nnext if$\noperand 2 text mewf\nwants integer\nname field {field}\n");
    assert_eq!(verdict(&read([of("year"), of("title")].concat().as_bytes(), b"s.bst")), "2 places");
    let asked =
        "a field is never a number: ask by `year empty$`, which leaves 1 where it is missing or blank, and else 0";
    assert_eq!(said("if$", "").1, asked);
    assert_eq!(said("+", "").1, "a field is never a number: push NUMBER NUMBER in this order");
    assert_eq!(said("int.to.str$", "").1, "a field is never a number: push a number there");
    let (what, advice) = said(":=", "ENTRY {year}{}{}\nINTEGERS {n}\nFUNCTION {f} { year 'n := }\n");
    assert_eq!(what, "`:=` takes VALUE 'VARIABLE: `n` is an integer (INTEGERS, line 2), and `year` is a field");
    assert!(advice.starts_with("if `n` is to be a string, declare it in STRINGS, and not in line 2; else"), "{advice}");
}

#[test]
fn warnings_of_one_cause_stand_together() {
    let notes =
        b"warning stack first\nnext write$\ndepth 0\nitem ITERATE 9 call.type$\nat of 4 3 0 f\nfrom in 6 3 1 f\n\
        from in 8 4 1 book\ntype book\ntype\ngiven title\nwarning stack later\nnext *\nat in 5 3 2 f\n\
        warning stack first\nnext add.period$\nat in 3 3 2 f\ncause in 7 3 9 f\ngrows 0 0 1 2\n";
    let mut out = Vec::new();
    let found = read(notes, b"s.bst");
    let code = Code::new(b"");
    let style = Style { path: "s.bst", code: &code, terminal: &Terminal::NONE, has_mistakes: false };
    write(&style, &found, None, &mut out).unwrap();
    let wanted = "s.bst:7: in f: the branches of this `if$` leave different numbers of literals: the first leaves 0, the second leaves 1 to 2\n    \
        what to do: let both leave the same number; warnings below may follow from this\n\
        s.bst:4: in f: `write$` takes TEXT, and there may be no literal on the stack here\n    and in line 3\n    \
        for entries of type: book, types that the style doesn't know\n    when: title is given\n    \
        called from: ITERATE {call.type$} (line 9) > book (line 8) > f (line 4)\n    \
        may follow from: the unequal `if$` in line 7\n    \
        what to do: mend that `if$` first; if the warning stays, push what it takes, in this order; \
        let both branches of each `if$` on the way leave the same number of literals\n";
    assert_eq!(String::from_utf8(out).unwrap(), wanted);
    assert_eq!(verdict(&found), "2 places, 1 cause; 1 more after these");
    let verdict_of = |notes: &str| verdict(&read(notes.as_bytes(), b"s.bst"));
    assert_eq!(verdict_of("warning stack first\npartial\n"), "1 place; there may be more after");
    let hidden = "warning stack first\nwarning stack later\nwarning kind later\n";
    assert_eq!(verdict_of(hidden), "1 place; 2 more after it");
    let partial = [hidden, "partial\n"].concat();
    assert_eq!(verdict_of(&partial), "1 place; 2 more after it, and there may be others");
}
