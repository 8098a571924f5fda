"""The original's own rules for databases. What isn't here is as in `databases.py`."""

from databases import Entry, Fault, Place, Reader, Library, is_blank, squeezed, trimmed
from original_texts import LINE_END
from texts import lowered, name_at


class Slot:
    """A place of the list: what its entry has. `kind` is None as long as no entry is there, and empty for a type that the style hasn't."""

    def __init__(self):
        self.kind, self.fields = None, {}


class OriginalLibrary(Library):
    """The list is kept by numbers, as the original keeps it: `numbers` has the number of each key in lower case, and `spelling` how it is written.

    With `*` the keys that stand after it are `saved`, and their numbers are given again, in the order of the databases. A key that is saved and has no
    entry keeps its number, though it may be another entry's by then."""

    def __init__(self, style, job):
        super().__init__(style, job)
        self.old = len(job.keys)
        self.star = self.old if job.star is None else job.star
        self.saved = list(job.keys)
        self.exists = [False] * self.old
        self.keys = list(job.keys)
        self.slots = [Slot() for _ in job.keys]
        self.references = [0] * self.old
        self.numbers = {lowered(key): number for number, key in enumerate(job.keys)}
        self.spelling = {lowered(key): key for key in job.keys}
        self.next = self.star if self.takes_all else self.old

    # ---- storing ----

    def number_for(self, key, fault):
        """The number of an entry's key if the entry is to be stored, or None."""
        folded = lowered(key)
        if folded in self.numbers:
            number = self.numbers[folded]
            if not self.is_first(folded, number):
                raise fault
            if not self.takes_all and number >= self.old:
                self.spelling[folded] = self.keys[number] = key
        elif self.takes_all:
            self.spelling[folded] = key
        else:
            return None
        return self.placed(folded) if self.takes_all else self.numbers[folded]

    def is_first(self, folded, number):
        """Whether no entry with this key came before."""
        if not self.takes_all or not self.star <= number < self.old:
            return self.slots[number].kind is None
        return not self.exists[number] and lowered(self.saved[number]) == folded

    def placed(self, folded):
        """The number of a key where all entries are taken: that of its place before the `*`, or else the next one."""
        number = self.numbers.get(folded)
        if number is not None and number < self.star:
            return number
        if number is not None and number < self.old:
            self.exists[number] = True
        return self.add(folded)

    def add(self, folded):
        number, self.next = self.next, self.next + 1
        if number == len(self.keys):
            self.keys.append(b"")
            self.slots.append(Slot())
            self.references.append(0)
        self.keys[number] = self.spelling[folded]
        self.numbers[folded] = number
        return number

    def keep_value(self, number, field, value):
        """A field's value; one that was read before stays."""
        if field in self.slots[number].fields:
            return
        self.slots[number].fields[field] = value
        if field == b"crossref" and not self.takes_all:
            self.refer_to(value)

    def refer_to(self, key):
        folded = lowered(key)
        if folded not in self.numbers:
            self.spelling[folded] = key
            self.references[self.add(folded)] = 1
        elif self.numbers[folded] >= self.old:
            self.references[self.numbers[folded]] += 1

    # ---- the whole reading ----

    def read(self, sources, min_crossrefs):
        for name, text in self.style.macros.items():
            self.strings[name] = squeezed(text)
        for name, text in sources:
            OriginalReader(self, name, text).read()
        self.inherit()
        self.judge_parents(min_crossrefs)
        self.remove(min_crossrefs)
        return self

    def children(self):
        """The entries that name a parent, in order, with the parent's number, which is None where no key is the parent's."""
        for number in range(self.next):
            fields = self.slots[number].fields
            if b"crossref" in fields:
                yield fields, self.numbers.get(lowered(fields[b"crossref"]))

    def inherit(self):
        """A child takes the fields of its parent's number, also where another entry has it by now; a field that is missing stays so."""
        for fields, parent in self.children():
            if parent is not None:
                fields[b"crossref"] = self.spelling[lowered(fields[b"crossref"])]
                for field, value in list(self.slots[parent].fields.items()):
                    fields.setdefault(field, value)

    def judge_parents(self, min_crossrefs):
        for fields, parent in self.children():
            if parent is None or self.slots[parent].kind is None or self.goes(parent, min_crossrefs):
                del fields[b"crossref"]

    def goes(self, number, min_crossrefs):
        """Whether an entry is there for references alone, and too few refer to it."""
        return not self.takes_all and number >= self.old and self.references[number] < min_crossrefs

    def remove(self, min_crossrefs):
        for number in range(self.next):
            slot = self.slots[number]
            if slot.kind is not None and not self.goes(number, min_crossrefs):
                place = Place(self.keys[number], True)
                place.entry = Entry(slot.kind)
                place.entry.values = slot.fields
                self.list.append(place)


class OriginalReader(Reader):
    """Reads a database. `begin_entry` gives the number of the entry where it is stored."""

    def read(self):
        """After an item, or a fault, on the last line nothing more of it is read."""
        while self.goes_on():
            found = self.text.find(b"@", self.place)
            if found < 0:
                return
            self.place = found + 1
            try:
                self.read_item()
            except Fault as fault:
                self.place = fault.args[1]

    def goes_on(self):
        """Whether a line comes after the one that is being read. At the front none is."""
        if self.place == 0:
            return self.text != b""
        end = LINE_END.search(self.text, self.place)
        return end is not None and end.end() < len(self.text)

    def name_ends(self, allowed):
        """A name is followed by whitespace, or by what may come next."""
        after = self.peek()
        if after and not is_blank(after[0]) and after not in allowed:
            raise Fault(b"", self.place)

    def read_string(self):
        """A string is that of its own name, in lower case, until its value is read; so that is what a fault in the definition leaves."""
        name = lowered(self.read_name())
        self.name_ends((b"=",))
        self.library.strings[name] = name
        self.sign((b"=",), b"")
        parts = self.read_value()
        self.library.strings[name] = squeezed(self.joined(parts, name))

    def begin_entry(self, kind, key):
        number = self.library.number_for(key, Fault(b"Repeated entry", self.place))
        if number is not None:
            self.library.slots[number].kind = kind if kind in self.library.style.types else b""
        return number

    def take_field(self, number, key, field, parts):
        """A value is kept only where the file goes on after it."""
        name = lowered(field)
        if number is not None and name in self.library.fields:
            self.library.keep_value(number, name, trimmed(squeezed(self.joined(parts, None))))

    def read_value(self):
        """As in `databases.py`, but the file may not end after a part."""
        parts = super().read_value()
        self.skip_white()
        return parts

    def read_part(self):
        """A string's name that is directly before a wrong byte is a fault, and the value isn't kept."""
        start, text = super().read_part()
        if start is not None:
            self.name_ends((b",", b"#", self.closing))
        return start, text

    def open_item(self):
        self.closing = super().open_item()
        return self.closing


def read_databases(style, job, sources, min_crossrefs):
    return OriginalLibrary(style, job).read(sources, min_crossrefs)
