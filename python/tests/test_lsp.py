"""The language server, driven by a scripted editor."""

import os
import pathlib
import random
import re
import tempfile
import time
import unittest

from btx.builtins import BUILT_IN, described
from btx.documents import Document, split_lines
from btx.bsttext import read_style
from btx.tokens import MODIFIERS, TYPES
from btx.wire import Wire
from tests.editor import Editor, edit, marked, spot
from tests.jobs import SOURCES

STYLE = r"""ENTRY {author title year} {} {label}
MACRO {jan} {"January"}
MACRO {acm} {"ACM"}
INTEGERS {n}
FUNCTION {output} { write$ newline$ }
FUNCTION {article}
{ title output year empty$ 'skip$ { year output } if$ #1 'n := }
FUNCTION {book} { "😀" author * titel output }
READ
ITERATE {call.type$}
"""
BASE = r"""@string{tug = "TUGboat" # acm}
@article{kay, title = "É 😀" # acm, month = jan, yaer = 1984, crossref = {Book1}}
@book{Book1, title = {Café}, author = {A B}, year = 2000}
@misc{j, note 1}
@book{k2, title = tgu, pages = {1-2}}
"""
PAPER = "Text \\cite{kay, bok1} and \\citep[p.~1]{Book1}.\n\\bibliographystyle{s}\n\\bibliography{d}\n"
AUX = "\\citation{kay}\n\\citation{zz}\n\\bibstyle{s}\n\\bibdata{d}\n\\citation{a b}\n"
SENT = []


class WithEditor(unittest.TestCase):
    def setUp(self):
        room = tempfile.TemporaryDirectory()
        self.addCleanup(room.cleanup)
        folder = pathlib.Path(room.name).resolve()
        for name, text in (("s.bst", STYLE), ("d.bib", BASE), ("paper.tex", PAPER), ("paper.aux", AUX)):
            (folder / name).write_text(text)
        self.editor = Editor(folder)
        self.addCleanup(self.end)
        self.status = None
        self.editor.result("initialize", processId=None, rootUri=None, capabilities={})
        self.editor.tell("initialized")

    def end(self):
        SENT.append(self.editor.exchanges)
        if self.status is None:
            self.status, errors = self.editor.close()
            self.assertEqual(self.status, 0, errors)

    def said(self, name, text):
        """What is said of a text: the word, the code and the severity."""
        return [(marked(text, it["range"]), it["code"], it["severity"]) for it in self.editor.open(name, text)]

    def places(self, texts, found):
        return sorted((it["uri"].rpartition("/")[2], marked(texts[it["uri"].rpartition("/")[2]], it["range"]), it["range"]["start"]["line"]) for it in found)

    def hover(self, name, text, word, nth=0):
        found = self.editor.result("textDocument/hover", **self.editor.at(name, *spot(text, word, nth)))
        return found and found["contents"]["value"]

    def labels(self, name, line, column):
        return [it["label"] for it in self.editor.result("textDocument/completion", **self.editor.at(name, line, column))]


class Styles(WithEditor):
    def test_diagnostics(self):
        found = self.said("s.bst", STYLE)
        self.assertEqual([it for it in found if it[1] == "mistake"], [("titel", "mistake", 1)])
        self.assertIn(("write$", "check", 2), found)

    def test_a_warning_is_on_its_token(self):
        text = "ENTRY {title}{}{}\nFUNCTION {book} { \"a\" write$ title write$ \"b\" write$ }\nREAD\nITERATE {call.type$}\n"
        (found,) = self.editor.open("s.bst", text)
        self.assertEqual((found["range"]["start"]["character"], found["severity"]), (text.split("\n")[1].index("title write$") + 6, 2))
        self.assertIn("title may be missing", found["message"])

    def test_each_built_in_function_is_described(self):
        text = "ENTRY{}{}{}\nFUNCTION {f} {\n" + "\n".join(BUILT_IN) + "\n}\n"
        self.editor.open("s.bst", text)
        for number, name in enumerate(BUILT_IN):
            with self.subTest(name=name):
                found = self.editor.result("textDocument/hover", **self.editor.at("s.bst", number + 2, 0))
                self.assertEqual(found["contents"]["value"], described(name))

    def test_other_names_are_described(self):
        self.editor.open("s.bst", STYLE)
        self.assertEqual(self.hover("s.bst", STYLE, "output", 1), "function `output`")
        self.assertEqual(self.hover("s.bst", STYLE, "title"), "field `title`")
        self.assertEqual(self.hover("s.bst", STYLE, "acm"), 'string `acm` = "ACM"')
        self.assertIsNone(self.hover("s.bst", STYLE, "titel"))
        self.assertIsNone(self.hover("s.bst", STYLE, '"January'))

    def test_definition_and_references(self):
        self.editor.open("s.bst", STYLE)
        found = self.editor.result("textDocument/definition", **self.editor.at("s.bst", *spot(STYLE, "output", 2)))
        self.assertEqual(self.places({"s.bst": STYLE}, found), [("s.bst", "output", 4)])
        found = self.editor.result("textDocument/references", **self.editor.at("s.bst", *spot(STYLE, "output")), context={"includeDeclaration": False})
        self.assertEqual([line for _, _, line in self.places({"s.bst": STYLE}, found)], [6, 6, 7])
        found = self.editor.result("textDocument/references", **self.editor.at("s.bst", *spot(STYLE, "n :=")), context={"includeDeclaration": True})
        self.assertEqual([line for _, _, line in self.places({"s.bst": STYLE}, found)], [3, 6])

    def test_rename(self):
        self.editor.open("s.bst", STYLE)
        where = self.editor.at("s.bst", *spot(STYLE, "output", 2))
        (edits,) = self.editor.result("textDocument/rename", **where, newName="put.out")["changes"].values()
        self.assertEqual([(marked(STYLE, it["range"]), it["newText"]) for it in edits], [("output", "put.out")] * 4)
        for name in ("year", "write$", "crossref", "a b", "1a", "", "a{b", "a%"):
            with self.subTest(name=name):
                self.assertEqual(self.editor.ask("textDocument/rename", {**where, "newName": name})["error"]["code"], -32803)
        self.assertEqual(self.editor.ask("textDocument/rename", {**self.editor.at("s.bst", *spot(STYLE, "write$")), "newName": "w"})["error"]["code"], -32803)
        self.assertEqual(self.editor.result("textDocument/prepareRename", **where)["start"]["line"], 6)

    def tokens(self, name, text, method="full", **params):
        """The tokens of a text: each word with its kind and what is said beside it."""
        uri = {"textDocument": {"uri": self.editor.uri(name)}}
        data = self.editor.result(f"textDocument/semanticTokens/{method}", **uri, **params)["data"]
        lines, line, column, found = text.split("\n"), 0, 0, []
        for lines_after, columns_after, length, kind, bits in zip(*[iter(data)] * 5):
            line, column = line + lines_after, columns_after + (0 if lines_after else column)
            written = lines[line].encode("utf-16-le")[2 * column : 2 * (column + length)].decode("utf-16-le")
            found.append((written, TYPES[kind], [it for bit, it in enumerate(MODIFIERS) if bits >> bit & 1]))
        return found

    def test_tokens(self):
        text = STYLE.replace("READ", "% a \"comment\" 😀\nFUNCTION {misc} { crossref 'n := acm entry.max$ \"50% 'x\" year\nREAD")
        self.editor.open("s.bst", text)
        found = self.tokens("s.bst", text)
        for wanted in (
            ("ENTRY", "keyword", []), ("author", "property", ["definition"]), ("label", "variable", ["definition"]), ("MACRO", "keyword", []), ("jan", "macro", ["definition"]),
            ('"January"', "string", []), ("n", "variable", ["definition"]), ("output", "function", ["definition"]), ("write$", "function", ["defaultLibrary"]), ("title", "property", []),
            ("output", "function", []), ("skip$", "function", ["defaultLibrary"]), ("#1", "number", []), ("n", "variable", []), ('"😀"', "string", []), ('% a "comment" 😀', "comment", []),
            ("crossref", "property", ["defaultLibrary"]), ("acm", "macro", []), ("entry.max$", "variable", ["defaultLibrary"]), ('"50% \'x"', "string", []), ("year", "property", []),
            ("READ", "keyword", []), ("call.type$", "function", ["defaultLibrary"]),
        ):
            with self.subTest(wanted=wanted):
                self.assertIn(wanted, found)
        self.assertNotIn("titel", [it[0] for it in found])
        self.assertEqual([it[0] for it in found if it[1] == "comment"], ['% a "comment" 😀'])
        part = self.tokens("s.bst", text, "range", range={"start": {"line": 1, "character": 0}, "end": {"line": 2, "character": 5}})
        self.assertEqual([it[0] for it in part], ["MACRO", "jan", '"January"', "MACRO"])
        self.editor.change("s.bst", {"text": "READ \"a"})
        self.assertEqual(self.tokens("s.bst", "READ \"a"), [("READ", "keyword", []), ('"a', "string", [])])
        self.editor.open("d.bib", BASE)
        self.assertEqual(self.tokens("d.bib", BASE), [])

    def test_completion_and_symbols(self):
        self.editor.open("s.bst", STYLE)
        labels = self.labels("s.bst", 7, 0)
        self.assertTrue({"write$", "output", "title", "n", "label", "FUNCTION"} <= set(labels))
        self.assertNotIn("jan", labels)
        found = self.editor.result("textDocument/documentSymbol", textDocument={"uri": self.editor.uri("s.bst")})
        self.assertEqual([it["name"] for it in found], ["ENTRY", "MACRO jan", "MACRO acm", "INTEGERS", "output", "article", "book", "READ", "ITERATE call.type$"])

    def test_actions(self):
        text = STYLE.replace("ITERATE", "ITERTE")
        self.editor.open("s.bst", text)
        for word, new in (("titel", "title"), ("ITERTE", "ITERATE")):
            with self.subTest(word=word):
                place = self.editor.at("s.bst", *spot(text, word))
                (found,) = self.editor.result("textDocument/codeAction", textDocument=place["textDocument"], range={"start": place["position"], "end": place["position"]}, context={"diagnostics": []})
                ((change,),) = found["edit"]["changes"].values()
                self.assertEqual((marked(text, change["range"]), change["newText"]), (word, new))

    def test_a_missing_brace(self):
        text = "ENTRY{}{}{}\nFUNCTION {f} { skip$\n"
        self.editor.open("s.bst", text)
        whole = {"start": {"line": 0, "character": 0}, "end": {"line": 9, "character": 0}}
        (found,) = self.editor.result("textDocument/codeAction", textDocument={"uri": self.editor.uri("s.bst")}, range=whole, context={"diagnostics": []})
        ((change,),) = found["edit"]["changes"].values()
        self.editor.change("s.bst", edit([change["range"]["start"][it] for it in ("line", "character")], [change["range"]["end"][it] for it in ("line", "character")], change["newText"]))
        self.assertEqual(self.editor.diagnostics("s.bst"), [])


class Databases(WithEditor):
    def test_diagnostics(self):
        found = self.said("d.bib", BASE)
        self.assertIn(("1", "mistake", 1), found)
        self.assertIn(("tgu", "undefined-string", 2), found)
        self.assertEqual([it for it in found if it[0] == "yaer"], [("yaer", "misspelt-field", 2)])
        self.assertIn(("@misc", "unknown-type", 2), found)
        self.assertIn(("{1-2}", "one-hyphen", 3), found)

    def test_hover(self):
        self.editor.open("d.bib", BASE)
        self.assertEqual(self.hover("d.bib", BASE, "jan"), "string `jan` = January")
        self.assertEqual(self.hover("d.bib", BASE, "acm"), "string `acm` = ACM")
        self.assertEqual(self.hover("d.bib", BASE, "Book1"), "**@book** `Book1`\n\nauthor: A B\n\ntitle: Café\n\nyear: 2000")

    def test_definitions_and_references(self):
        self.editor.open("d.bib", BASE)
        texts = {"d.bib": BASE, "s.bst": STYLE, "paper.tex": PAPER, "paper.aux": AUX}
        found = self.editor.result("textDocument/definition", **self.editor.at("d.bib", *spot(BASE, "Book1")))
        self.assertEqual(self.places(texts, found), [("d.bib", "Book1", 2)])
        found = self.editor.result("textDocument/definition", **self.editor.at("d.bib", *spot(BASE, "acm", 1)))
        self.assertEqual(self.places(texts, found), [("s.bst", "acm", 2)])
        found = self.editor.result("textDocument/references", **self.editor.at("d.bib", *spot(BASE, "Book1,")), context={"includeDeclaration": True})
        self.assertEqual(self.places(texts, found), [("d.bib", "Book1", 1), ("d.bib", "Book1", 2), ("paper.tex", "Book1", 0)])

    def test_rename(self):
        self.editor.open("d.bib", BASE)
        where = self.editor.at("d.bib", *spot(BASE, "kay"))
        changes = self.editor.result("textDocument/rename", **where, newName="Kay84")["changes"]
        self.assertEqual(sorted(uri.rpartition("/")[2] for uri in changes), ["d.bib", "paper.tex"])
        where = self.editor.at("d.bib", *spot(BASE, "tug"))
        self.assertEqual(len(self.editor.result("textDocument/rename", **where, newName="tb")["changes"]), 1)
        for word, name in [*(("kay", it) for it in ("a b", "k2", "", "a,b", "a}", "*")), ("tug", "Jan"), ("tug", "acm"), ("tug", "tods")]:
            with self.subTest(word=word, name=name):
                self.assertEqual(self.editor.ask("textDocument/rename", {**self.editor.at("d.bib", *spot(BASE, word)), "newName": name})["error"]["code"], -32803)

    def test_completion(self):
        text = BASE + "@\n@book{x,\n  t\n  title = a\n  crossref = {B\n"
        self.editor.open("d.bib", text)
        lines = text.split("\n")
        number = lines.index("@")
        self.assertEqual(self.labels("d.bib", number, 1), ["article", "book", "comment", "preamble", "string"])
        self.assertEqual(self.labels("d.bib", number + 2, 3), ["author", "crossref", "title", "year"])
        self.assertEqual(self.labels("d.bib", number + 3, 11), ["acm", "jan", "tug"])
        self.assertEqual(self.labels("d.bib", number + 4, 15), ["Book1", "j", "k2", "kay", "x"])

    def test_symbols_and_actions(self):
        self.editor.open("d.bib", BASE)
        found = self.editor.result("textDocument/documentSymbol", textDocument={"uri": self.editor.uri("d.bib")})
        self.assertEqual([it["name"] for it in found], ["tug", "kay", "Book1", "j", "k2"])
        for word, new in (("tgu", "tug"), ("yaer", "year"), ("{1-2}", "{1--2}")):
            with self.subTest(word=word):
                place = self.editor.at("d.bib", *spot(BASE, word))
                found = self.editor.result("textDocument/codeAction", textDocument=place["textDocument"], range={"start": place["position"], "end": place["position"]}, context={"diagnostics": []})
                self.assertIn(new, [change["newText"] for it in found for (change,) in it["edit"]["changes"].values()])

    def test_the_comma_is_added(self):
        text = "@book{k,\n  title = {😀}\n  year = 1}\n"
        self.assertEqual(self.said("d.bib", text), [("y", "mistake", 1)])
        place = {"line": 2, "character": 2}
        (found,) = self.editor.result("textDocument/codeAction", textDocument={"uri": self.editor.uri("d.bib")}, range={"start": place, "end": place}, context={"diagnostics": []})
        ((change,),) = found["edit"]["changes"].values()
        self.assertEqual((change["range"]["start"], change["newText"]), ({"line": 1, "character": 14}, ","))


    def test_an_organization_gets_braces(self):
        text = "@book{k, title = {😀}, author = {A B and World Bank Group}}\n"
        self.assertEqual(self.said("d.bib", text), [("World Bank Group", "bare-organization", 2)])
        place = self.editor.at("d.bib", *spot(text, "World"))
        (found,) = self.editor.result("textDocument/codeAction", textDocument=place["textDocument"], range={"start": place["position"], "end": place["position"]}, context={"diagnostics": []})
        self.assertEqual(found["title"], "Change to `{World Bank Group}`")


class Documents(WithEditor):
    def test_citations(self):
        self.assertEqual(self.said("paper.tex", PAPER), [("bok1", "no-entry", 2)])
        self.assertEqual(self.hover("paper.tex", PAPER, "Book1").split("\n")[0], "**@book** `Book1`")
        self.assertEqual(self.labels("paper.tex", 0, 12), ["Book1", "j", "k2", "kay"])
        self.assertEqual(self.labels("paper.tex", 0, 2), [])
        found = self.editor.result("textDocument/definition", **self.editor.at("paper.tex", *spot(PAPER, "kay")))
        self.assertEqual(self.places({"d.bib": BASE}, found), [("d.bib", "kay", 1)])
        place = self.editor.at("paper.tex", *spot(PAPER, "bok1"))
        (found,) = self.editor.result("textDocument/codeAction", textDocument=place["textDocument"], range={"start": place["position"], "end": place["position"]}, context={"diagnostics": []})
        self.assertEqual(found["title"], "Change to `Book1`")

    def test_what_tex_does_not_read_is_not_cited(self):
        """What the doctor's reader of documents leaves out."""
        unread = ("% \\cite{no}", "\\iffalse \\cite{no}\n\\fi", "\\verb|\\cite{no}|", "\\verb*+\\cite{no}+", "\\begin{verbatim}\n\\cite{no}\\end{verbatim}", "\\begin{comment}\\cite{no}\\end{comment}",
                  "\\citestyle{no}", "\\cite{kay,% no\n}", "\\end{document}\n\\cite{no}")
        for text in unread:
            with self.subTest(text=text):
                self.assertEqual(self.said("paper.tex", PAPER + text), [("bok1", "no-entry", 2)])
        read = "\\% \\cite{no1} \\\\% \\cite{not}\n\\verb \\cite{no2} \\verbatim|\\cite{no3}| \\iffalsey \\cite{no4}\\fi \\iffalse \\verb| \\cite{no5} \\begin{verbatim}\\cite{no6}"
        self.assertEqual([word for word, *_ in self.said("paper.tex", PAPER + read)], ["bok1", *(f"no{it}" for it in range(1, 7))])

    def test_a_name_that_only_latex_knows_is_taken_from_the_aux_file(self):
        paper = PAPER.replace("{d}", "{\\jobname}").replace("{s}", "{\\mystyle}")
        self.assertEqual(self.said("paper.tex", paper), [("bok1", "no-entry", 2)])

    def test_long_commands(self):
        """What looks like a citation all the way: the time grows with the text alone."""
        tail, begin = "\n\\cite{bok1}\n\\bibliography{d}\n", time.monotonic()
        for text in ("\\" + "cite" * 50_000, "\\cite[" * 40_000, "\\cite[x]" * 40_000, "\\cite{" * 40_000, "cite" * 50_000, "\\bibliography{" * 20_000, "\\bibstyle{" * 20_000, "\\cite[x][" * 30_000):
            with self.subTest(text=text[:12]):
                self.assertEqual(self.said("paper.tex", text + tail), [("bok1", "no-entry", 2)])
                self.assertEqual(self.labels("paper.tex", text.count("\n") + 1, 6), ["Book1", "j", "k2", "kay"])
        self.assertLess(time.monotonic() - begin, 60)

    def test_auxiliary_files(self):
        self.assertEqual(self.said("paper.aux", AUX), [("\\citation{a b}", "mistake", 1), ("zz", "no-entry", 2)])

    def test_an_open_database_counts_before_the_one_on_disk(self):
        self.editor.open("d.bib", BASE + "@misc{bok1}")
        self.assertEqual(self.said("paper.tex", PAPER), [])
        self.editor.tell("textDocument/didClose", textDocument={"uri": self.editor.uri("d.bib")})
        self.assertEqual(self.editor.diagnostics("d.bib"), [])
        self.editor.tell("textDocument/didSave", textDocument={"uri": self.editor.uri("paper.tex")})
        self.assertEqual(len(self.editor.diagnostics("paper.tex")), 1)

    def test_a_rename_follows_the_files_that_are_read(self):
        """In comments and in verbatim text the key stays."""
        folder = self.editor.folder
        for name in ("parts", "others"):
            (folder / name).mkdir()
        (folder / "paper.tex").write_text(PAPER + "\\input{parts/one} % \\input{others/no}\n")
        one = "\\cite{kay} % \\cite{kay}\n\\begin{verbatim}\\cite{kay}\\end{verbatim}\n"
        for name, text in (("parts/one", one + "\\include{parts/two}\n"), ("parts/two", "\\citep{KAY}\n"), ("others/no", one)):
            (folder / f"{name}.tex").write_text(text)
        self.editor.open("d.bib", BASE)
        self.editor.open("parts/one.tex", one + "\\include{parts/two}\n")
        for where in (self.editor.at("d.bib", *spot(BASE, "kay")), self.editor.at("parts/one.tex", *spot(one, "kay"))):
            changes = self.editor.result("textDocument/rename", **where, newName="new")["changes"]
            self.assertEqual({uri[len(folder.as_uri()) + 1 :]: len(edits) for uri, edits in changes.items()}, {"d.bib": 1, "paper.tex": 1, "parts/one.tex": 1, "parts/two.tex": 1})

    def test_citations_of_a_chapter_in_a_folder_below(self):
        """The databases are those that the document above names, or its `.aux` file, or another file that it reads."""
        folder, chapter = self.editor.folder, "Text \\cite{kay,bok1}.\n"
        (folder / "chapters").mkdir()
        (folder / "d.bib").unlink()
        whole = "\\input{chapters/zero}\\include{chapters/one}\n"
        for main, others in (
            (whole + "\\bibliography{e}\n", {}),
            (whole, {"main.aux": "\\bibdata{e}\n"}),
            (whole + "\\input{chapters/last}\n", {"chapters/last.tex": "\\bibliography{e}\n"}),
            ("\\input{chapters/all}\n", {"chapters/all.tex": whole + "\\bibliography{e}\n"}),
            (whole, {"chapters/one.tex": chapter + "\\bibliography{e}\n"}),
        ):
            with self.subTest(main=main, others=list(others)):
                files = {"main.tex": main, "e.bib": BASE, "chapters/zero.tex": "", "chapters/one.tex": chapter, **others}
                for name, text in files.items():
                    (folder / name).write_text(text)
                self.assertEqual(self.said("chapters/one.tex", files["chapters/one.tex"]), [("bok1", "no-entry", 2)])
                found = self.editor.result("textDocument/definition", **self.editor.at("chapters/one.tex", *spot(chapter, "kay")))
                self.assertEqual({place["uri"] for place in found}, {self.editor.uri("e.bib")})
                self.editor.tell("textDocument/didClose", textDocument={"uri": self.editor.uri("chapters/one.tex")})
                self.assertEqual(self.editor.diagnostics("chapters/one.tex"), [])
                for name in files:
                    (folder / name).unlink()

    def test_a_chapter_that_no_document_reads(self):
        (self.editor.folder / "chapters").mkdir()
        (self.editor.folder / "main.tex").write_text("% \\include{chapters/one}\n\\bibliography{d}\n")
        self.assertEqual(self.said("chapters/one.tex", "\\cite{bok1}\n"), [])

    def test_files_that_another_program_changes(self):
        self.assertEqual(len(self.said("paper.tex", PAPER)), 1)
        (self.editor.folder / "d.bib").write_text(BASE + "@misc{bok1}\n")
        self.editor.tell("workspace/didChangeWatchedFiles", changes=[{"uri": self.editor.uri("d.bib"), "type": 2}])
        self.assertEqual(self.editor.diagnostics("paper.tex"), [])

    def test_a_client_that_can_is_asked_to_watch_files(self):
        """It was asked nothing as long as it didn't say that it can."""
        self.assertEqual(self.editor.notices, [])
        self.editor.result("initialize", capabilities={"workspace": {"didChangeWatchedFiles": {"dynamicRegistration": True}}})
        self.editor.tell("initialized")
        asked = self.editor.take()
        self.assertEqual(asked["method"], "client/registerCapability")
        self.assertEqual([it["registerOptions"]["watchers"] for it in asked["params"]["registrations"]], [[{"globPattern": "**/*.{bib,bst,aux}"}]])
        self.editor.send(id=asked["id"], result=None)
        self.assertEqual(len(self.said("paper.tex", PAPER)), 1)


class Hostile(WithEditor):
    def test_two_hundred_changes_give_one_answer_for_the_last_text(self):
        self.editor.open("d.bib", "@misc{k}")
        messages = []
        for number in range(200):
            text = "@book{k, title 1}" if number < 199 else "@book{k,\n\n title 1}"
            params = {"textDocument": {"uri": self.editor.uri("d.bib"), "version": number + 2}, "contentChanges": [{"text": text}]}
            messages.append(self.editor.framed({"method": "textDocument/didChange", "params": params}))
        self.editor.raw(b"".join(messages))
        message = self.editor.take()
        self.assertEqual((message["params"]["version"], message["params"]["diagnostics"][0]["range"]["start"]["line"]), (201, 2))
        self.assertIsNone(self.editor.take(0.5))

    def test_changes_one_after_another_give_few_answers(self):
        self.editor.open("d.bib", "@misc{k}")
        for number in range(60):
            self.editor.change("d.bib", {"text": f"@misc{{k{number}}}"})
            time.sleep(0.002)
        answers = []
        while not answers or answers[-1]["params"]["version"] < 61:
            answers.append(self.editor.take())
        self.assertLess(len(answers), 15)

    def test_edits_in_the_middle_of_a_letter(self):
        self.editor.open("d.bib", "@misc{k, note 😀}")
        self.editor.change("d.bib", edit((0, 15), (0, 15), "= "), edit((0, 99), (0, 99), "\n"), edit((99, 99), (99, 99), "@"))
        (found,) = [it for it in self.editor.diagnostics("d.bib") if it["code"] == "mistake"]
        self.assertEqual(found["range"]["start"]["line"], 1)
        self.editor.change("d.bib", edit((0, 5), (0, 2), ""), edit((1, 0), (0, 0), "x"))
        self.assertIn("mistake", [it["code"] for it in self.editor.diagnostics("d.bib")])

    def test_half_letters(self):
        self.assertEqual(self.editor.open("d.bib", "@book{k, title = {\ud83d}}\n"), [])
        self.editor.change("d.bib", {"text": "@book{k, title \udc00}"})
        self.assertEqual([it["code"] for it in self.editor.diagnostics("d.bib")], ["mistake"])

    def test_a_text_of_50_megabytes(self):
        line = "@misc{k%d, title = {Some title that is long enough}, year = 2000}\n"
        text = "".join(line % number for number in range(50_000_000 // 67))
        self.assertGreater(len(text), 50_000_000)
        begin = time.monotonic()
        (found,) = self.editor.open("big.bib", text)
        self.assertEqual(found["code"], "too-long")
        for number in range(20):
            self.editor.change("big.bib", edit((number, 0), (number, 1), "@"))
        self.assertEqual([it["code"] for it in self.editor.diagnostics("big.bib")], ["too-long"])
        where = self.editor.at("big.bib", 500_000, 8)
        answers = [self.editor.result(f"textDocument/{method}", **where) for method in ("documentSymbol", "hover", "completion", "definition", "prepareRename")]
        self.assertEqual(answers, [[], None, [], [], None])
        self.assertEqual(self.said("paper.tex", PAPER.replace("{d}", "{d,big}")), [("bok1", "no-entry", 2)])
        self.assertLess(time.monotonic() - begin, 120)

    def test_a_document_without_a_name_is_refused(self):
        """It isn't kept, so that the requests about others are answered."""
        self.editor.open("good.bib", "@misc{k, note = {A}}\n")
        for uri, text in ((5, "x"), (None, "x"), ("file:///a.bib", 5)):
            self.editor.tell("textDocument/didOpen", textDocument={"uri": uri, "languageId": "bibtex", "version": 1, "text": text})
        self.assertTrue(self.editor.result("textDocument/documentSymbol", textDocument={"uri": self.editor.uri("good.bib")}))
        self.assertIsNone(self.editor.result("textDocument/hover", **self.editor.at("good.bib", 0, 20)))

    def test_what_nobody_should_send(self):
        where = self.editor.at("d.bib", 0, 0)
        rows = [("nosuch", {}, -32601), ("textDocument/hover", where, -32602), ("textDocument/hover", None, -32602), ("textDocument/hover", [], -32602),
                ("textDocument/hover", {"textDocument": {}}, -32602)]
        for method, params, code in rows:
            with self.subTest(method=method, params=params):
                self.assertEqual(self.editor.ask(method, params)["error"]["code"], code)
        self.editor.open("d.bib", BASE)
        bad = {**where, "position": {"line": "x", "character": None}}
        self.assertEqual(self.editor.ask("textDocument/hover", bad)["error"]["code"], -32602)
        self.editor.result("textDocument/hover", **self.editor.at("d.bib", -5, -5))
        self.editor.raw(b"Content-Length: 3\r\n\r\n{x}")
        self.assertEqual(self.editor.take()["error"]["code"], -32700)
        self.editor.raw(b"Content-Length: 2\r\n\r\n[]")
        self.assertEqual(self.editor.take()["error"]["code"], -32700)
        self.editor.raw(b"X: 1\r\n\r\n")
        self.assertEqual(self.editor.take()["error"]["code"], -32700)
        self.editor.send(id=77)
        self.assertEqual(self.editor.take()["error"]["code"], -32600)
        self.editor.tell("textDocument/didChange", textDocument={"uri": self.editor.uri("d.bib")}, contentChanges=[{"range": 3, "text": "x"}])
        self.editor.tell("$/cancelRequest", id=5)
        self.assertIsNotNone(self.editor.result("textDocument/documentSymbol", textDocument={"uri": self.editor.uri("d.bib")}))

    def test_files_beside_a_text_that_are_none(self):
        for name, make in (("fifo.bib", os.mkfifo), ("zero.bib", lambda path: os.symlink("/dev/zero", path)), ("folder.bib", os.mkdir), ("fifo.tex", os.mkfifo), ("lost.aux", lambda path: os.symlink("nothing", path))):
            make(self.editor.folder / name)
        paper = PAPER.replace("{d}", "{d,fifo,zero,folder}")
        self.assertEqual(self.said("paper.tex", paper), [("bok1", "no-entry", 2)])
        self.assertEqual(len(self.editor.result("textDocument/references", **self.editor.at("paper.tex", 0, 12), context={"includeDeclaration": True})), 3)

    def test_texts_of_other_kinds(self):
        self.assertEqual(self.editor.open("x.txt", "@misc{k, note 1}"), [])
        self.editor.tell("textDocument/didOpen", textDocument={"uri": "untitled:1.bib", "languageId": "bibtex", "version": 1, "text": "@misc{k, note 1}"})
        message = self.editor.take()
        self.assertEqual([it["code"] for it in message["params"]["diagnostics"]], ["mistake"])

    def test_thousands_of_mistakes(self):
        found = self.editor.open("d.bib", "@misc{k, note = zz}\n" * 2 + "@string{s = a%d}\n" * 30_000)
        self.assertEqual((len(found), found[-1]["code"]), (1001, "more"))

    def test_its_status(self):
        self.assertEqual(self.editor.ask("shutdown")["result"], None)
        self.assertEqual(self.editor.ask("textDocument/hover", {})["error"]["code"], -32600)
        self.editor.tell("exit")
        self.assertEqual(self.editor.server.wait(20), 0)
        for stream in (self.editor.server.stdin, self.editor.server.stdout, self.editor.server.stderr):
            stream.close()
        self.status = 0


class Alone(unittest.TestCase):
    def test_without_a_shutdown_the_status_is_1(self):
        with tempfile.TemporaryDirectory() as folder:
            editor = Editor(folder)
            self.assertEqual(editor.ask("textDocument/hover", {})["error"]["code"], -32002)
            editor.server.stdin.close()
            self.assertEqual(editor.server.wait(20), 1)
            editor.server.stdout.close()
            editor.server.stderr.close()

    def test_a_message_may_come_in_pieces(self):
        source, into = os.pipe()
        wire, whole = Wire(source, into), b"Content-Length: 7\r\nX: y\r\n\r\n" + b'{"a":1}'
        try:
            for cut in range(1, len(whole)):
                os.write(into, whole[:cut])
                self.assertIsNone(wire.take(0))
                os.write(into, whole[cut:] + whole)
                self.assertEqual([wire.take(5), wire.take(5), wire.take(0)], [{"a": 1}, {"a": 1}, None])
        finally:
            os.close(source)
            os.close(into)

    def test_the_functions_are_those_of_rules(self):
        table = {}
        for line in (SOURCES / "docs/RULES.md").read_text().splitlines():
            cells = [cell.strip() for cell in re.split(r"(?<!\\)\|", line)[1:-1]]
            if len(cells) == 6 and re.fullmatch(r"`([^`]+\$|[-=<>+*]|:=)`", cells[0]):
                table[cells[0].strip("`")] = tuple(cells[1:])
        self.assertEqual(len(table), 37)
        self.assertEqual({name: tuple(it) for name, it in BUILT_IN.items()}, table)

    def test_edits_beside_edits_of_the_whole_text(self):
        maker = random.Random(3)
        for _ in range(5000):
            text = "".join(maker.choice(["a", "b", "\n", "\r", "\r\n", "😀", "é"]) for _ in range(maker.randrange(12)))
            document = Document("u", text)
            places = [{"line": maker.randrange(6), "character": maker.randrange(6)} for _ in range(2)]
            new = "".join(maker.choice(["x", "\n", "\r", "😀"]) for _ in range(maker.randrange(4)))
            start, end = sorted(document.place(place) for place in places)
            whole = text.encode()[:start] + new.encode() + text.encode()[end:]
            document.edit(dict(zip(("start", "end"), places)), new)
            self.assertEqual((document.text, document.lines), (whole, split_lines(whole.decode())))

    def test_places_and_positions(self):
        document = Document("u", "a😀é\r\nb\rc\n")
        for place in (0, 1, 5, 7, 9, 10, 11, 12, 13):
            self.assertEqual(document.place(document.position(place)), place)
        self.assertEqual(document.position(5), {"line": 0, "character": 3})
        self.assertEqual(document.place({"line": 0, "character": 2}), 1)

    def test_styles_with_mistakes_are_read_on(self):
        style = read_style(b"FUNCTION {f} { g {\n\nFUNCTION {h} { 'f }\nMACRO {m} {\"x\"}\n")
        self.assertEqual([it.name for it in style.definitions], ["f", "h", "m"])
        self.assertEqual([(it.name, it.token, it.is_quoted) for it in style.uses], [("g", 0, False), ("f", 0, True)])
        for text in (b"", b"FUNCTION", b"FUNCTION {", b"MACRO {}{}", b"ENTRY {a", b"}{", b'"', b"'", b"FUNCTION {f}{'", b"\xff" * 9, b"%", b"FUNCTION {f}{" + b"{" * 5000):
            with self.subTest(text=text[:20]):
                read_style(text)


class ZZExchanges(unittest.TestCase):
    def test_zz_enough_exchanges_were_made(self):
        if not SENT:
            self.skipTest("the other tests weren't run")
        self.assertGreaterEqual(sum(SENT), 150)


if __name__ == "__main__":
    unittest.main()
