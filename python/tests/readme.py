"""The first examples of python/README.md: each is run in an empty folder, and prints what the comments after its calls of `print` say.

    python3 readme.py README      the package is found as Python finds it; the last line is 'N passed, M failed'"""

import pathlib
import re
import subprocess
import sys
import tempfile

EXAMPLES = 3
BLOCK = re.compile(r"(?m)^(?:    .*\n|\n)*    import btx\n(?:    .*\n|\n)*")
PRINTED = re.compile(r"(?m)^ *print\(.*\) +# (.*)$")


def examples(readme):
    """The first examples: pairs of a text and the lines that it prints."""
    blocks = BLOCK.findall(readme)[:EXAMPLES]
    texts = ["\n".join(line[4:] for line in block.strip("\n").split("\n")) + "\n" for block in blocks]
    return [(text, PRINTED.findall(text)) for text in texts]


def printed(text):
    """The lines that an example prints, run in an empty folder by this Python."""
    with tempfile.TemporaryDirectory() as folder:
        done = subprocess.run([sys.executable, "-c", text], cwd=folder, stdin=subprocess.DEVNULL, capture_output=True, text=True, timeout=60)
    return done.stdout.splitlines() if done.returncode == 0 else [done.stderr]


def main():
    found = examples(pathlib.Path(sys.argv[1]).read_text())
    failed = EXAMPLES - len(found)
    for text, wanted in found:
        shown = printed(text)
        if shown != wanted or not wanted:
            failed += 1
            print(f"FAILED: {text}\n{shown}")
    print(f"{EXAMPLES - failed} passed, {failed} failed")
    return failed > 0


if __name__ == "__main__":
    raise SystemExit(main())
