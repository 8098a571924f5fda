"""The 37 built-in functions, as docs/RULES.md has them under "Functions of styles": a test compares the two."""

from __future__ import annotations

from typing import Dict, NamedTuple

__all__ = ["BUILT_IN", "Function", "described"]


class Function(NamedTuple):
    """A built-in function. operands: from the top; I an integer, S a string, F a function, M a string or a missing field, L any literal. gives: what it does.
    errors: what it logs beside a missing operand or one of a wrong kind. default: what it then pushes. example: a body."""

    operands: str
    gives: str
    errors: str
    default: str
    example: str


BUILT_IN: Dict[str, Function] = {
    "=": Function("L L", "1 if two integers or two strings are equal, else 0", "any other two can't be compared; 0", "0", "`#1 #1 =` gives 1"),
    ">": Function("I I", "1 if the lower one is greater than the top one, else 0", "", "0", "`#2 #1 >` gives 1"),
    "<": Function("I I", "1 if the lower one is less than the top one, else 0", "", "0", "`#2 #1 <` gives 0"),
    "+": Function("I I", "their sum", "out of 32 bits: 0", "0", "`#2 #1 +` gives 3"),
    "-": Function("I I", "the lower one minus the top one", "out of 32 bits: 0", "0", "`#2 #1 -` gives 1"),
    "*": Function("S S", "the lower one followed by the top one", "", "the empty string", "`\"a\" \"b\" *` gives `ab`"),
    ":=": Function("F, L", "gives the variable F the value below it", "F is no variable; there is no entry for an entry's variable; then the kind of the value", "none", "`#1 'i :=`"),
    "add.period$": Function("S", "a `.` at the end, unless the last byte that isn't `}` is `.`, `?` or `!`", "", "the empty string", "`\"a\" add.period$` gives `a.`"),
    "call.type$": Function("none", "runs the function of the entry's type, or `default.type` where the style doesn't know the type", "no entry", "none", "`call.type$`"),
    "change.case$": Function("S (letter), S", "the lower string in the case `t`, `l` or `u`", "another letter: the string stays", "the empty string", "`\"AB\" \"l\" change.case$` gives `ab`"),
    "chr.to.int$": Function("S", "the code of a string of one byte", "any other string: 0", "0", "`\"A\" chr.to.int$` gives 65"),
    "cite$": Function("none", "the key of the entry", "no entry: nothing is pushed", "none", "`cite$`"),
    "duplicate$": Function("L", "pushes it twice", "", "none", "`#1 duplicate$` gives 1 1"),
    "empty$": Function("M", "1 for a missing field and a string of whitespace alone (a byte 10 is none), else 0", "", "0", "`\" \" empty$` gives 1"),
    "format.name$": Function("S (format), I, S", "the name of this number in the format", "there is no such name: the empty string; a comma at its end; too many commas; an illegal format: the empty string", "the empty string", "`\"Ann Lee\" #1 \"{ll}\" format.name$` gives `Lee`"),
    "if$": Function("F (else), F (then), I", "runs one of both: \"then\" if I is above 0", "", "none", "`#1 {\"a\"} {\"b\"} if$` gives `a`"),
    "int.to.chr$": Function("I", "the byte of a code from 0 to 127", "any other code: the empty string", "the empty string", "`#65 int.to.chr$` gives `A`"),
    "int.to.str$": Function("I", "its decimal text", "", "the empty string", "`#-7 int.to.str$` gives `-7`"),
    "missing$": Function("M", "1 for a missing field, else 0", "no entry: the operand goes, and nothing is pushed", "0", "`title missing$`"),
    "newline$": Function("none", "ends the line", "", "none", "`newline$`"),
    "num.names$": Function("S", "how many names it holds", "", "0", "`\"A and B\" num.names$` gives 2"),
    "pop$": Function("L", "nothing more", "", "none", "`#1 pop$`"),
    "preamble$": Function("none", "all preambles of the databases, joined", "", "none", "`preamble$`"),
    "purify$": Function("S", "its letters and digits, with spaces", "", "the empty string", "`\"a-b!\" purify$` gives `a b`"),
    "quote$": Function("none", "the string `\"`", "", "none", "`quote$`"),
    "skip$": Function("none", "nothing", "", "none", "`skip$`"),
    "stack$": Function("none", "takes all literals off and shows them in the log, top first", "", "none", "`stack$`"),
    "substring$": Function("I (length), I (start), S", "as many bytes as the length says, from the start on; a start below 0 counts from the end, and the piece ends there", "", "the empty string", "`\"abcde\" #2 #3 substring$` gives `bcd`"),
    "swap$": Function("L L", "the other way round", "each of the two that is missing is logged; one literal alone stays", "none", "`#1 #2 swap$` gives 2 1"),
    "text.length$": Function("S", "its characters of text", "", "0", "`\"a{b}\" text.length$` gives 2"),
    "text.prefix$": Function("I, S", "its first characters of text, with the braces closed that they leave open", "", "the empty string", "`\"a{bc}\" #2 text.prefix$` gives `a{b}`"),
    "top$": Function("L", "shows it in the log", "", "none", "`#1 top$`"),
    "type$": Function("none", "the name of the entry's type in lower case; the empty string where the style doesn't know the type", "no entry: nothing is pushed", "none", "`type$`"),
    "warning$": Function("S", "a warning in the log", "", "none", "`\"no title\" warning$`"),
    "while$": Function("F (body), F (test)", "runs the test and takes an integer. While that is above 0, it runs the body and begins again. Where the test leaves no integer, that is an error and the loop ends", "", "none", "`{i #0 >} {i #1 - 'i :=} while$`"),
    "width$": Function("S", "its width in hundredths of a point", "", "0", "`\"AB\" width$` gives 1458"),
    "write$": Function("S", "appended to the line", "", "none", "`\"a\" write$`"),
}


def described(name: str) -> str:
    """What is said of a built-in function, in Markdown."""
    it = BUILT_IN[name]
    lines = [f"**`{name}`** {it.gives}", f"Operands, from the top: {it.operands}."]
    if it.errors:
        lines.append(f"Errors: {it.errors}.")
    if it.default:
        lines.append("After an error it pushes nothing." if it.default == "none" else f"After an error it pushes {it.default}.")
    return "\n\n".join([*lines, f"Example: {it.example}."])
