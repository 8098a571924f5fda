"""How a logical line becomes lines of the list."""

from texts import WHITE, front, is_white


def line(text):
    bare = text.rstrip(WHITE)
    return b"" if text and not bare else bare + b"\n"


def break_place(text, most):
    """Where a longer text is broken: the head's end and the rest's beginning, or None."""
    inside = [place for place in range(3, most + 1) if is_white(text[place])]
    if inside:
        return inside[-1], inside[-1] + 1
    start = front(text, most + 1, lambda byte: not is_white(byte))
    return None if start == len(text) else (start, front(text, start, is_white))


def cut(text, most):
    """The lines that are broken off, joined, and what is left: a text that isn't broken, or None."""
    done = b""
    while len(text) > most:
        found = break_place(text, most)
        if found is None:
            break
        done += line(text[:found[0]])
        if found[1] == len(text):
            return done, None
        text = b"  " + text[found[1]:]
    return done, text


def wrapped(text, most):
    """What an ended line is written as."""
    done, left = cut(text, most)
    if left is None:
        return done
    return done + (line(left) if len(left) <= most else left + b"\n")


def sure(text, most):
    """What is written of a line that hasn't ended."""
    done, left = cut(text, most)
    return done + (left if left is not None and len(left) > most else b"")
