"""A wrong body's file, read: where its texts stand, and the function that must be refused."""

import functools
import re


class WrongBody:
    def __init__(self, path):
        self.path, self.name, self.text = path, path.stem, path.read_text(encoding="utf-8")
        self.function = "".join(re.findall(r"(?m)^function: (\S+)$", self.text))
        self.changes_definitions = re.search(r"(?m)^file: (specs|proofs)/", self.text) is not None
        self.files = set(re.findall(r"(?m)^file: (\S+)$", self.text))
        self.is_rare = re.search(r"(?m)^rare: \S", self.text) is not None
        self.is_slip = all(file.startswith("specs/") for file in self.files)

    def planted_in(self, texts, folder):
        """The texts of the files that this body changes, above those that others have changed."""
        texts, file, old = dict(texts), None, None
        for line in self.text.splitlines():
            word, _, rest = line.partition(": ")
            if word == "file":
                file = rest
                texts.setdefault(file, (folder / file).read_text(encoding="utf-8"))
            elif word == "old":
                old = rest
            elif word == "new" or line == "new:":
                found = texts[file].count(old)
                if found != 1:
                    raise ValueError(f"its old text stands in {file} {found} times, and not once")
                texts[file] = texts[file].replace(old, rest)
        return texts

    def see_function(self, folder):
        """Raises what is wrong with the name of the function: a round in which the prover is asked for one that isn't there says nothing of the others."""
        *modules, name = self.function.split("::")
        declared, functions = names_of(folder)
        # (a name with a capital is a type's, with that of the trait after it; a conversion may be derived)
        of_type = bool(modules) and modules[-1][0].isupper()
        if of_type and not any(modules[-1].startswith(it) for it in declared) or name not in functions and not (of_type and name == "from"):
            raise ValueError(f"the crate has no function {self.function}")


@functools.lru_cache(maxsize=None)
def names_of(folder):
    """The names of a crate's types and of those that it implements a trait for, and those of its functions."""
    text = "\n".join(path.read_text(encoding="utf-8") for path in folder.glob("src/**/*.rt"))
    return set(re.findall(r"\b(?:struct|enum|for) (\w+)", text)), set(re.findall(r"\bfn (\w+)", text))
