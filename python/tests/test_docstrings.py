"""What Python's help says of each public name."""

import enum
import inspect
import re
import unittest

import btx

# Names of which a text says nothing more than its subject does.
PLAIN = {"self", "cls"}


def subjects():
    """The public functions and classes, and what is public in the classes: the name of each and the thing itself."""
    for name in btx.__all__:
        thing = getattr(btx, name)
        if inspect.isclass(thing) or inspect.isfunction(thing):
            yield name, thing
        if inspect.isclass(thing):
            for inner, value in vars(thing).items():
                if not inner.startswith("_") and (inspect.isfunction(value) or isinstance(value, (property, classmethod, staticmethod))):
                    yield f"{name}.{inner}", value


def own_text(thing):
    """The docstring that was written for a thing: Python makes one for a named tuple and for a dataclass without one."""
    text = vars(thing).get("__doc__") if inspect.isclass(thing) else thing.__doc__
    is_made = inspect.isclass(thing) and text is not None and text.startswith(f"{thing.__name__}(")
    return "" if text is None or is_made else text


def parts_of(thing):
    """The names that a docstring is to explain: parameters, fields, and what an exception keeps."""
    if inspect.isfunction(thing):
        return [name for name in inspect.signature(thing).parameters if name not in PLAIN]
    if not inspect.isclass(thing) or issubclass(thing, enum.Enum):
        return []
    fields = [name for name in vars(thing).get("__annotations__", {}) if not name.startswith("_")]
    made = vars(thing).get("__init__") if issubclass(thing, BaseException) else None
    return fields + ([name for name in inspect.signature(made).parameters if name not in PLAIN] if made else [])


class Docstrings(unittest.TestCase):
    def test_each_public_name_has_one(self):
        found = dict(subjects())
        self.assertGreater(len(found), 70)
        for name, thing in found.items():
            with self.subTest(name=name):
                self.assertRegex(own_text(thing), r"\w")

    def test_each_part_is_explained(self):
        for name, thing in subjects():
            text = own_text(thing)
            for part in parts_of(thing):
                with self.subTest(name=name, part=part):
                    self.assertRegex(text, rf"\b{part}\b")

    def test_types_and_errors(self):
        """Each parameter, each result and each property has a type, and what a function raises by itself its docstring names."""
        for name, thing in subjects():
            function = thing.fget if isinstance(thing, property) else thing
            if not inspect.isfunction(function):
                continue
            with self.subTest(name=name):
                known = set(function.__annotations__) | PLAIN
                self.assertEqual(known & {"return"}, {"return"})
                self.assertLessEqual(set(inspect.signature(function).parameters), known)
                for error in re.findall(r"raise ([A-Z]\w+)\(", inspect.getsource(function)):
                    self.assertIn(error, thing.__doc__)


if __name__ == "__main__":
    unittest.main()
