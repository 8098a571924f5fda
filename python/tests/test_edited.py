"""A server whose texts are edited, beside one that has opened them so: what it keeps from one text to the next makes no difference."""

import contextlib
import io
import json
import pathlib
import random
import tempfile
import unittest
import unittest.mock

from btx.bibtext import read
from btx.citing import KEY, Citations
from btx.diagnosing import MOST_AT_ONCE, MOST_OF_STYLE
from btx.documents import LINE_END, Document, LineEnds
from btx.doctor import Source, Style
from btx.outline import Outline, outline_of
from btx.pieces import Pieces
from btx.server import Server
from btx.wire import Ended
from tests.editor import edit
from tests.spoilt import SIGNS, seeds

STYLE = b"ENTRY {title author year note doi}{}{}\nMACRO {zz} {\"Z\"}\nFUNCTION {misc} {}\nFUNCTION {book} {title write$}\nREAD\nITERATE {call.type$}\n"
PUT = [*SIGNS, b"@misc{a}", b"\n@string{s = 1}\n", b"@book{Kay, title = {T} # s}", b"@string{S = {x@y}}", "é😀".encode(), b"@misc{b, crossref = {Kay}}"]
CITED = [b"\\cite{a}", b"\\cite{a, b}", b"\\nocite{", b"}", b"{", b"x\n", b"\\citation{k}", b"\\citation{k}\n", b"\n", b"[", b"]", b"\\cite[see {x}", b"]{c}", b"\\citep[p.][q]{z,\ny}", b" ", b"\\Cite", b"ite", b"\\write{w}", b"\\footcites*", b"cite{c}", b"\\" + b"cite" * 30 + b"{q}", "é😀".encode()]
MISTAKES = {"mistake", "repeated-key"}


def edits(maker, text, put):
    """A text after an edit by chance."""
    at, other = maker.randrange(len(text) + 1), maker.randrange(len(text) + 1)
    to = min(len(text), at + maker.randrange(30))
    return text[:at] + maker.choice((maker.choice(put), b"", text[at:to] * 2, text[other : other + 100])) + text[maker.choice((at, to)) :]


def small_pieces(maker):
    """Lets a piece be about one item, or as long as ever."""
    return unittest.mock.patch.multiple("btx.renewing", LEAST_BYTES=1, MOST_PIECES=maker.choice((1000, 5)), MOST_READ=maker.choice((1, 4)))


class Script:
    """A wire whose messages are known: None is that none waits. sent: what the server sends."""

    def __init__(self, *messages):
        self.messages = list(messages)
        self.sent = []

    def take(self, seconds):
        if not self.messages:
            raise Ended
        return self.messages.pop(0) if self.messages[0] is not None or seconds is not None else self.take_next()

    def take_next(self):
        """The next message of one who waits for it."""
        self.messages.pop(0)
        return self.take(None)

    def send(self, message):
        self.sent.append(json.loads(json.dumps(message)))


def opened(uri, text, version=1):
    return {"method": "textDocument/didOpen", "params": {"textDocument": {"uri": uri, "version": version, "text": text}}}


def changed(uri, version, *changes):
    return {"method": "textDocument/didChange", "params": {"textDocument": {"uri": uri, "version": version}, "contentChanges": list(changes)}}


def served(*messages):
    """What a server sends that gets these messages."""
    script = Script({"id": 0, "method": "initialize", "params": {}}, *messages)
    Server(script).serve()
    return script.sent[1:]


def published(sent):
    """The version and the names of the checks of each message with diagnostics."""
    return [(it["params"]["version"], {found["code"] for found in it["params"]["diagnostics"]}) for it in sent if it.get("method") == "textDocument/publishDiagnostics"]


class Steps(unittest.TestCase):
    """What is sent of a large text, and when."""

    URI = "untitled:large.bib"
    TEXT = "@misc{first, pages = {1-2}, note 1}\n" + "".join(f"@misc{{k{number}, title = {{A Title That Is Long}}, year = {number}}}\n" for number in range(6000)) + "@misc{K5, pages = {3-4}}\n"
    WAITS = [None] * 200

    def test_the_mistakes_are_sent_first(self):
        self.assertGreater(len(self.TEXT), MOST_AT_ONCE)
        self.assertEqual(published(served(opened(self.URI, self.TEXT), *self.WAITS)), [(1, MISTAKES), (1, {*MISTAKES, "one-hyphen"})])

    def test_requests_are_answered_before_the_rest(self):
        asked = {"id": 7, "method": "textDocument/hover", "params": {"textDocument": {"uri": self.URI}, "position": {"line": 0, "character": 8}}}
        sent = served(opened(self.URI, self.TEXT), None, None, asked, *self.WAITS)
        self.assertEqual([it.get("id", "diagnostics") for it in sent], ["diagnostics", 7, "diagnostics"])

    def test_an_edit_ends_an_examination(self):
        for turns in (1, 2, 5, 10):
            with self.subTest(turns=turns):
                change = changed(self.URI, 2, edit((0, 0), (0, 0), "@misc{x y}\n"))
                sent = published(served(opened(self.URI, self.TEXT), *[None] * turns, change, *self.WAITS))
                self.assertEqual(([it[0] for it in sent], sent[-1][1]), ([1, 2, 2], {*MISTAKES, "one-hyphen"}))

    def test_a_flood_of_changes_gives_the_answer_of_the_last(self):
        changes = [changed(self.URI, version, {"text": self.TEXT + str(version)}) for version in range(2, 60)]
        self.assertEqual([version for version, _ in published(served(opened(self.URI, self.TEXT), *changes, *self.WAITS))], [59, 59])

    def test_a_small_edit_gives_one_answer(self):
        change = changed(self.URI, 2, edit((9, 0), (9, 0), " "))
        self.assertEqual([version for version, _ in published(served(opened(self.URI, self.TEXT), *self.WAITS, change, *self.WAITS))], [1, 1, 2])

    def test_a_closed_text_is_examined_no_more(self):
        close = {"method": "textDocument/didClose", "params": {"textDocument": {"uri": self.URI}}}
        sent = served(opened(self.URI, self.TEXT), None, None, close, *self.WAITS)
        self.assertEqual([len(it["params"]["diagnostics"]) for it in sent], [2, 0])

    def test_nothing_is_sent_after_a_shutdown(self):
        for waits in ([], [None], [None, None]):
            with self.subTest(waits=waits):
                sent = served(opened(self.URI, self.TEXT), *waits, {"id": 9, "method": "shutdown"}, *self.WAITS)
                self.assertEqual(sent[-1]["id"], 9)

    def test_actions_wait_for_the_whole(self):
        whole = {"start": {"line": 0, "character": 0}, "end": {"line": 9999, "character": 0}}
        asked = {"id": 7, "method": "textDocument/codeAction", "params": {"textDocument": {"uri": self.URI}, "range": whole, "context": {"diagnostics": []}}}
        sent = served(opened(self.URI, self.TEXT), None, asked, *self.WAITS)
        self.assertIn("Change to `{1--2}`", [it["title"] for it in sent[1]["result"]])
        self.assertEqual([version for version, _ in published(sent)], [1, 1])

    def test_a_nonsense_change_loses_nothing(self):
        change = changed(self.URI, 2, {"range": 3, "text": "x"})
        with contextlib.redirect_stderr(io.StringIO()) as complaints:
            sent = published(served(opened(self.URI, self.TEXT), None, None, change, *self.WAITS))
        self.assertEqual(sent[-1], (1, {*MISTAKES, "one-hyphen"}))
        self.assertRegex(complaints.getvalue(), r"^btx lsp: textDocument/didChange: TypeError: .*\n$")

    def test_a_large_style(self):
        uri, text = "untitled:large.bst", "ENTRY {a}{}{}\nFUNCTION {f} { x }\nFUNCTION {book} { a write$ }\n" + "% a comment\n" * 6000 + "READ\nITERATE {call.type$}\n"
        self.assertGreater(len(text), MOST_OF_STYLE)
        self.assertEqual(published(served(opened(uri, text), *self.WAITS)), [(1, {"mistake"}), (1, {"mistake", "check"})])

    def test_a_style_that_was_checked_lately_is_not_checked_again(self):
        uri, calls = "untitled:s.bst", []
        real = Server.diagnosis.__globals__["Diagnosis"].__init__.__globals__["warnings_of"]
        with unittest.mock.patch("btx.diagnosing.warnings_of", lambda text: calls.append(text) or real(text)):
            text = "ENTRY {a}{}{}\nREAD % lately\n"
            served(opened(uri, text), None, changed(uri, 2, edit((0, 0), (0, 0), "%\n")), None, changed(uri, 3, edit((0, 0), (1, 0), "")), None, {"method": "textDocument/didSave", "params": {}}, None)
        self.assertEqual(len(calls), 2)


class Beside(unittest.TestCase):
    """A server with edited texts, and one that opens them."""

    def answers(self, server, uri, places):
        """What a server answers of a text, and of some places of it."""
        where = {"textDocument": {"uri": uri}}
        found = [server.symbols(where), server.tokens(where)]
        for place in places:
            at = {**where, "position": place}
            found += [server.hover(at), server.definition(at), sorted(map(str, server.references(at))), server.completion(at), server.prepare_rename(at)]
        return found, [tuple(it)[:5] for it in server.diagnosis(server.workspace.open[uri]).said]

    def compare(self, folder, name, texts, maker):
        """Compares the answers of a server that gets these texts by edits."""
        uri = (folder / name).as_uri()
        edited = Server(Script())
        edited.did_open({"textDocument": {"uri": uri, "text": texts[0].decode(), "version": 1}})
        for number, text in enumerate(texts):
            with self.subTest(name=name, number=number):
                if number:
                    self.edit(edited, uri, texts[number - 1].decode(), text.decode())
                    self.assertEqual(edited.workspace.open[uri].text, text)
                fresh = Server(Script())
                fresh.did_open({"textDocument": {"uri": uri, "text": text.decode(), "version": 1}})
                places = [fresh.workspace.open[uri].position(maker.randrange(len(text) + 1)) for _ in range(4)]
                if maker.randrange(2):
                    edited.diagnosis(edited.workspace.open[uri])
                self.assertEqual(self.answers(edited, uri, places), self.answers(fresh, uri, places), text)

    def edit(self, server, uri, before, after):
        """Changes one text to another by one edit of what is different."""
        first = next((at for at, (one, other) in enumerate(zip(before, after)) if one != other), min(len(before), len(after)))
        last = next((at for at, (one, other) in enumerate(zip(before[first:][::-1], after[first:][::-1])) if one != other), min(len(before), len(after)) - first)
        document = server.workspace.open[uri]
        where = {it: document.position(len(before[:place].encode())) for it, place in (("start", first), ("end", len(before) - last))}
        if before[first - 1 : first + 1] == "\r\n" or before[len(before) - last - 1 : len(before) - last + 1] == "\r\n":
            # (a position is never in the middle of a line end)
            server.did_change(changed(uri, 2, {"text": after})["params"])
        else:
            server.did_change(changed(uri, 2, {"range": where, "text": after[first : len(after) - last]})["params"])

    def texts(self, maker, text, put, count):
        found = [text]
        while len(found) < count:
            try:
                text = edits(maker, text, put)
                text.decode()
                found.append(text)
            except UnicodeDecodeError:
                text = found[-1]
        return found

    def test_databases(self):
        with tempfile.TemporaryDirectory() as room:
            folder = pathlib.Path(room).resolve()
            (folder / "s.bst").write_bytes(STYLE)
            (folder / "paper.tex").write_bytes(b"\\cite{Kay,a}\\bibliographystyle{s}\\bibliography{d}")
            for seed in range(15):
                maker = random.Random(seed)
                with small_pieces(maker):
                    text = b"\n".join(maker.choice(seeds()) for _ in range(maker.randrange(1, 6))).decode("utf8", "replace").encode()
                    self.compare(folder, "d.bib", self.texts(maker, text, [it.decode("utf8", "replace").encode() for it in PUT], 15), maker)

    def test_documents(self):
        with tempfile.TemporaryDirectory() as room, unittest.mock.patch("btx.citing.PART", 6):
            folder = pathlib.Path(room).resolve()
            (folder / "d.bib").write_bytes(b"@misc{a, title = {T}}\n@misc{z}\n@book{k}")
            for seed in range(8):
                maker = random.Random(seed)
                text = b"\\bibliography{d}\\bibdata{d}\n" + b"".join(maker.choice(CITED) for _ in range(30))
                for name in ("paper.tex", "other.aux"):
                    self.compare(folder, name, self.texts(maker, text, CITED, 12), maker)

    def test_styles(self):
        with tempfile.TemporaryDirectory() as room:
            maker = random.Random(1)
            put = [b"{", b"}", b"FUNCTION {g} {f}\n", b"'g ", b"\r", b"\r\n", "é😀".encode(), b"#1 "]
            self.compare(pathlib.Path(room).resolve(), "s.bst", self.texts(maker, STYLE, put, 80), maker)


class Kept(unittest.TestCase):
    """What is kept from one text to the next, by itself."""

    def facts(self, item, database, shift, is_doctor):
        """What is known of an item, with its places in the text. The doctor's reader knows more strings, so its values may be others."""
        fields = [(it.name, it.name_start + shift, it.name_end + shift, it.end + shift, None if is_doctor else it.value, [(part.start + shift, part.end + shift) for part in database.names(it)]) for it in item.fields]
        slip = item.slip and (item.slip.place + shift, item.slip.text)
        return item.start + shift, item.end + shift, item.kind, item.key, item.key is not None and item.key_end + shift, slip, fields

    def same(self, text, outline, is_doctor):
        """Compares an outline with what is read of the whole text."""
        whole = read(text)
        wanted = [self.facts(item, whole, 0, is_doctor) for item in whole.items]
        self.assertEqual([self.facts(*it, is_doctor) for it in outline.items()], wanted)
        for place in range(0, len(text) + 1, 11):
            found = [self.facts(*it, is_doctor) for it in outline.items_at(place)]
            self.assertEqual([it for it in wanted if it[0] <= place <= it[1] and it[3] is not None and it not in found], [], place)
        for key in {(item.key or b"").lower() for item in whole.items}:
            self.assertEqual([it.item.start + it.shift for it in outline.entries(key)], [item.start for item in whole.items if item.is_entry and item.key.lower() == key])
        self.assertEqual(set(outline.strings), set(whole.strings))
        if not is_doctor:
            self.assertEqual(outline.strings, whole.strings)

    def test_outlines(self):
        """Edits by chance of texts whose pieces are one item each."""
        counted = 0
        for seed in range(10):
            maker, pieces, outline = random.Random(seed), Pieces(), None
            text = b"\n".join(maker.choice(seeds()) for _ in range(maker.randrange(1, 6)))
            with small_pieces(maker):
                for number in range(15):
                    with self.subTest(seed=seed, number=number):
                        outline = outline_of(text, outline)
                        self.same(text, outline, False)
                        read_by_doctor = pieces.read(Source("", text), (None, Style(STYLE))[seed % 2]).pieces
                        if not any(piece.has_repeated for piece in read_by_doctor):
                            counted += 1
                            self.same(text, Outline(text, read_by_doctor), True)
                    text = edits(maker, text, PUT)
        self.assertGreater(counted, 20)

    def test_what_pieces_were_read_in_is_bounded(self):
        """Entries that are opened and closed again, one after another: each time all that follows is read in one."""
        text = b"".join(b"@misc{k%d, title = {A Title That Is Long}, year = %d}\n" % (number, number) for number in range(5000))
        outline, pieces = outline_of(text, None), Pieces()
        for place in range(0, len(text), len(text) // 40):
            for edited in (text[:place] + b"\n@misc{x, note = {" + text[place:], text):
                outline = outline_of(edited, outline)
                self.bounded(edited, outline.pieces)
                self.bounded(edited, pieces.read(Source("", edited), None).pieces)

    def bounded(self, text, pieces):
        read_in = {id(piece.part.database): len(piece.part.database.text) for piece in pieces}
        self.assertLessEqual(sum(read_in.values()), 4 * len(text))

    def test_citations(self):
        maker, citations = random.Random(5), None
        with unittest.mock.patch("btx.citing.PART", 6):
            for turn in range(1500):
                if turn % 20 == 0:
                    text, is_aux, citations = b"".join(maker.choice(CITED) for _ in range(maker.randrange(30))), bool(turn % 40), None
                citations = Citations(text, is_aux, citations)
                wanted = [key.span() for cite in citations.pattern.finditer(text) for key in KEY.finditer(text, *cite.span(1))]
                self.assertEqual(list(citations.all()), wanted, text)
                self.assertEqual(list(citations.without(frozenset([b"a"]))), [it for it in wanted if text[slice(*it)] != b"a"])
                for place in range(len(text) + 1):
                    self.assertLessEqual({it for it in wanted if it[0] <= place <= it[1]}, set(citations.near(place)))
                text = edits(maker, text, CITED)

    def test_line_ends(self):
        """Edits by chance: the counts and the places are those of all line ends of the text, also where a return and a line feed come together."""
        maker, signs = random.Random(7), [b"a", b"\n", b"\r", b"\r\n", b"bcdefgh", b"\xc3\xa9", b""]
        with unittest.mock.patch("btx.documents.BLOCK", 5):
            for is_of_feeds in (False, True):
                for _ in range(20):
                    text = b"".join(maker.choice(signs) for _ in range(maker.randrange(30)))
                    ends = LineEnds(text, is_of_feeds)
                    for _ in range(15):
                        start = maker.randrange(len(text) + 1)
                        end = min(len(text), start + maker.randrange(9))
                        text = text[:start] + b"".join(maker.choice(signs) for _ in range(maker.randrange(5))) + text[end:]
                        ends.edit(text, start, end)
                        self.all_ends(text, ends, [it + 1 for it, byte in enumerate(text) if byte == 10] if is_of_feeds else [it.end() for it in LINE_END.finditer(text)])

    def all_ends(self, text, ends, wanted):
        for place in range(len(text) + 1):
            before = [it for it in wanted if it <= place]
            self.assertEqual((ends.before(place), ends.start_of_line(place)), (len(before), [0, *before][-1]), (text, place))
        for number in range(len(wanted) + 3):
            self.assertEqual(ends.after(number), [0, *wanted][number] if number <= len(wanted) else len(text), (text, number))

    def test_symbols_count_each_byte_once(self):
        """However long a line is."""
        counted = []
        server = Server(unittest.mock.Mock())
        server.workspace.open["u.bib"] = Document("u.bib", "@misc{é%d, title = {A}} " * 2000)
        with unittest.mock.patch("btx.documents.units", lambda text: counted.append(len(text)) or len(text.decode())):
            self.assertEqual(len(server.symbols({"textDocument": {"uri": "u.bib"}})), 2000)
        self.assertLessEqual(sum(counted), len(server.workspace.open["u.bib"].text))

    def test_positions_of_edited_texts(self):
        maker = random.Random(9)
        document = Document("u", "")
        for _ in range(1000):
            places = [{"line": maker.randrange(6), "character": maker.randrange(6)} for _ in range(2)]
            document.edit(dict(zip(("start", "end"), places)), "".join(maker.choice(["x", "\n", "\r", "\r\n", "é😀", ""]) for _ in range(maker.randrange(4))))
            fresh, place = Document("u", document.text.decode()), maker.randrange(len(document.text) + 1)
            self.assertEqual((document.position(place), document.line_range(2)), (fresh.position(place), fresh.line_range(2)))
            walk, at = fresh.walk(), sorted(maker.randrange(len(document.text) + 1) for _ in range(4))
            self.assertEqual([walk.at(it) for it in (*at, at[0])], [fresh.position(it) for it in (*at, at[0])])
            if len(document.text) > 60:
                document.replace(document.text.decode()[5:].encode() if maker.randrange(2) else b"")


if __name__ == "__main__":
    unittest.main()
