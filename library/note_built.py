"""Notes that the libraries that `rt ci` has built in this clone are built, so that `rt lib` makes the archive over them. `rt ci` leaves no such
note, and without it each of them would be proved anew, one after another. It is for the gate, behind `rt ci`; it prints how many there are.

    python3 note_built.py"""

import os
import pathlib
import sys

ROOT = pathlib.Path(__file__).resolve().parents[1]
sys.path.insert(0, str(ROOT / "tests/wrong_bodies"))
from plant import load_kit  # noqa: E402


def main():
    kit = load_kit()
    kit.rtlib.Crate = kit.Crate
    noted = 0
    for crate in kit.rtlib.crates_below(str(ROOT)):
        if not crate.is_program and not crate.is_static and os.path.isdir(crate.rlib):
            pathlib.Path(crate.folder, "out/rlib/stamp").write_text(crate.stamp(), encoding="utf8")
            noted += 1
    print(f"{noted} libraries are built")


if __name__ == "__main__":
    main()
