"""The library of a job as data: the entries of its list, with what they inherit, as a run has them.

    library = btx.read_job("paper")
    library["knuth"]["publisher"], library["knuth"].parent

The library for C reads it (`btx_read_job`), and it is proved that its records are those of the language's definition."""

from __future__ import annotations

from typing import List, NoReturn, Optional

from .jobs import Files, Name, gathered, job_name, name_text, not_there
from .library import Buffer, read_job_records
from .options import Options
from .outputs import Inputs
from .reading import Bibliography, Mistake, without_collection
from .refusals import NoLibrary
from .searching import search_from

__all__ = ["Library", "read_job"]


class Library(Bibliography):
    """What a job has of its databases. It is a collection of entries, in the order of the list: cited ones as they were first cited, and parents.

    A key is spelled as the list spells it. The type of an entry is that of a function of the style, or "" where the style has none for it. Its fields are those that the style declares and
    that have a value, in the order of its ENTRY, with what the entry inherits. `crossref` comes first, and is there only if the parent is in the list.

    A library keeps no places: what asks for one raises LookupError, and so do `raw` and `messages`. `btx.read` has them, and `btx.run` what a run logs of its files."""

    def __init__(self, job: str, records: Buffer, texts: Buffer) -> None:
        super().__init__(job, b"", frozenset(), records, texts)

    @property
    def messages(self) -> List[Mistake]:
        """Raises LookupError: a library keeps no messages."""
        raise LookupError("a library has no messages: those of the run are in btx.run(..).messages, those of a database in btx.read(..).messages")

    def _place(self, at: int, end: int) -> NoReturn:
        raise LookupError("a library keeps no places: btx.read has them, by the keys of entries")

    def __repr__(self) -> str:
        return f"<btx.Library {self.file}: {len(self)} entries>"


def read_job(job: Name, files: Optional[Files] = None, options: Optional[Options] = None) -> Library:
    """Reads the library of a job, as its run has it when its style is executed.

    job, files: as in `run`. Without files, the job is the path of a document's `.aux` file, and styles and databases are found where TeX finds them, as `run_paper` does. options: of
    these min_crossrefs counts; letters of a language are left as they are.

    Raises NoLibrary where the run ends before it has a library, TypeError where `options` are none, and what `run` raises; without files what `run_paper` raises: FileNotFoundError where there is no such `.aux` file, and OSError where
    a file can't be read."""
    name = job_name(job)
    is_paper = files is None
    if files is None:
        inputs = Inputs(search_from(None), name_text(name))
        files, options = inputs.content, inputs.search.options(Options()) if options is None else options
    chosen = Options() if options is None else options
    if not isinstance(chosen, Options):
        raise TypeError(f"options are Options, and not {chosen!r}")
    known = gathered(name, files)
    if is_paper and not any(content is not None for content in known.values()):
        raise not_there(name_text(name))
    found = read_job_records(name, known, chosen)
    if found is None:
        raise NoLibrary(name_text(name))
    with without_collection():
        return Library(name_text(name), *found)
