"""What is the same in all forms of the book: the parts of a section, and the blocks of a chapter of the book's own words."""

from typing import Callable, NamedTuple

import carried
import chapters
import edition
import evidence
import glossary
import layout
import manuals
import rules


class Sections(NamedTuple):
    """How a form of the book writes each part of a section, and of the lists after the core's sections."""
    opening: Callable
    example: Callable
    functions: Callable
    intros: Callable
    definition: Callable
    named: Callable
    listed: Callable
    evidence: Callable
    said: Callable
    text: Callable = str

    def woven(self, section, book, known):
        """A section's heading, rules, opening and examples; then its definitions, those of each module after what its files say at their front. The words of examples
        become known."""
        anchors = rules.headings()
        of_manuals = f" The manuals: {manuals.sentence(section)}." if manuals.followed_by(section) else ""
        out = self.opening(section, [(rule, anchors[rule]) for rule in section.rules if rule in anchors], of_manuals)
        out += [self.evidence(evidence.sentence(section))] * bool(evidence.sentence(section))
        out += [self.said(section.opening, book.by_id)] * bool(section.opening)
        for name in section.examples:
            if name in book.examples:
                example = book.examples[name]
                out.append(self.example(example, layout.caption(section, name, example), known))
        out += [self.functions(book.by_id)] * (section.table == "functions")
        for module, found in section.parts:
            out += [self.intros(chapters.files_of(module, found)), *map(self.definition, found)]
        return "\n".join(out)

    def core_lists(self, chapter):
        """What the core names of the chapters after it and of the library, each with its sentence, so that it can be read alone; none for another chapter."""
        if not layout.is_core(chapter):
            return []
        names = [self.named(it) + ": " + self.text(layout.sentence_of(it)) for it in layout.names_elsewhere(chapter)]
        words = [self.text(glossary.headed(word, meaning)) for word, meaning in glossary.words_of(chapter.definitions)]
        return [self.listed("core-names", layout.NAMES_ELSEWHERE, names), self.listed("core-words", layout.WORDS_USED, words)]


class Blocks(NamedTuple):
    """How a form of the book writes each kind of block."""
    heading: Callable
    shown: Callable
    words: Callable
    rows: Callable
    manuals: Callable
    renamed: Callable
    picture: Callable
    computed: Callable
    steps: Callable
    text: Callable

    def woven(self, front, book):
        """The blocks of a chapter, as this form writes them."""
        return [self.block(block, book) for block in front.blocks]

    def block(self, block, book):
        """A heading, a definition that is shown, a table, or else a text: a paragraph or a list."""
        if block.startswith("## "):
            return self.heading(block[3:])
        if block.startswith("@show "):
            return self.shown(book.by_id[block[6:].replace("::", ".")])
        if block == "@words":
            return self.words(book.found)
        if block in ("@terms", "@questions"):
            return self.rows(f"{block[1:]}.txt", book.by_id)
        if block == "@manuals":
            return self.manuals(book.sections)
        if block == "@picture":
            return self.picture(book.by_id)
        if block == "@files":
            return self.text("\n".join("    " + line for line in carried.file_lines()), book.by_id)
        if block in carried.COMPUTED:
            return self.computed(carried.as_definition(carried.COMPUTED[block](book.by_id), book.by_id))
        if block == "@steps":
            return self.steps(carried.step_rows())
        if block == "@renamed":
            return self.renamed(edition.renamed(), book.by_id)
        return self.text(block, book.by_id)
