"""Takes the LLVM module of the library for C from the kit's own build of it, which proves the crate first.

    python3 web/module.py OUT.bc VERDICT                 and writes what the kit said of the proof into VERDICT
    python3 web/module.py --unproved OUT.bc VERDICT      the module of the tree as it stands, of which nothing is proved: for trying

The kit hands the module to the clang of its toolchain. So this build is given a toolchain folder with a clang that keeps the module and goes no further. The module is
taken only if the build said `logic=proved` before. It begins with what `make library` kept, and takes a minute then.

The kit is asked for its verdict for 64-bit WebAssembly too: it proves the library for that machine and says so. It isn't asked to compile it."""

import importlib.machinery
import importlib.util
import os
import pathlib
import re
import shutil
import subprocess
import sys
import tempfile

ROOT = pathlib.Path(__file__).resolve().parents[1]
sys.path.insert(0, str(ROOT / "tests/wrong_bodies"))
from plant import load_kit  # noqa: E402

# Modules of the build that are no larger are of the kit's start-up code, and are compiled.
LEAST = 100_000
WASM = "wasm64-unknown-unknown"
CLANG = """#!/bin/sh
for file in *.bc; do
    if [ -f "$file" ] && [ "$(stat -c %s "$file")" -gt {least} ]; then cp "$file" '{into}'; exit 1; fi
done
exec '{clang}' "$@"
"""


def toolchain(kit, room, into):
    """A folder that is the kit's toolchain, but for its clang, which keeps the module as `into`."""
    of_kit = pathlib.Path(kit.rtlib.KIT, "toolchain")
    made = pathlib.Path(room, "toolchain")
    (made / "bin").mkdir(parents=True)
    for part in of_kit.iterdir():
        if part.name != "bin":
            (made / part.name).symlink_to(part)
    for tool in (of_kit / "bin").iterdir():
        if tool.name != "clang":
            (made / "bin" / tool.name).symlink_to(tool)
    clang = made / "bin/clang"
    clang.write_text(CLANG.format(least=LEAST, into=into, clang=of_kit / "bin/clang"), encoding="utf8")
    clang.chmod(0o755)
    return str(made)


def verdict_in(printed, target=None):
    """The line by which the kit says that the library is proved, for this target; None where it doesn't."""
    lines = [line for line in printed.splitlines() if re.match(r"logic=proved .*\bfunctions=[1-9]", line)]
    return next((line for line in reversed(lines) if not target or f" target={target} " in f"{line} "), None)


class Build:
    """The kit's build of the library: its words, and where what it proves is kept."""

    def __init__(self, room, folder=ROOT / "crates/btx_c", root=ROOT):
        self.kit, self.room, self.folder = load_kit(), room, folder
        self.kit.rtlib.Crate = self.kit.Crate
        self.words = self.kit.Crate(str(folder), str(root), {}).words(["--jobs", "2"])
        self.module = os.path.join(room, "module.bc")

    def printed(self, command, *words):
        """What the kit prints that proves the library by this command."""
        words = [command, *self.words, "--incremental", "out/incremental", *words]
        return subprocess.run([self.kit.rtlib.RATTLE, *words], cwd=self.folder, stdin=subprocess.DEVNULL, stdout=subprocess.PIPE, stderr=subprocess.STDOUT, text=True, errors="replace").stdout

    def make_module(self):
        """Has the library proved and its module made."""
        return self.printed("build", "--toolchain", toolchain(self.kit, self.room, self.module), "--backend", "llvm", "-o", os.path.join(self.room, "library.a"))

    def check_for(self, target):
        """Has the library proved for another machine."""
        return self.printed("check", "--target", target)


def proved(room, into):
    """Takes the module of the proved library; answers the kit's verdicts on it, for this machine and for WebAssembly."""
    build = Build(room)
    printed = build.make_module()
    verdict = verdict_in(printed)
    if not verdict or not os.path.exists(build.module):
        sys.exit(f"{printed[-3000:]}web: the library isn't proved, so there is no module of it")
    shutil.copyfile(build.module, into)
    printed = build.check_for(WASM)
    for_wasm = verdict_in(printed, WASM)
    if not for_wasm:
        print(f"{printed[-1000:]}left out: the verdict for {WASM} (this kit gives none)", file=sys.stderr)
    return [verdict, *([for_wasm] if for_wasm else [])]


def unproved(room, into):
    """Makes the module of the tree as `make try` does."""
    loader = importlib.machinery.SourceFileLoader("trial", str(ROOT / "contrib/try"))
    trial = importlib.util.module_from_spec(importlib.util.spec_from_loader("trial", loader))
    sys.dont_write_bytecode = True
    loader.exec_module(trial)
    room, kit = pathlib.Path(room), trial.kit_folder()
    module = trial.make_module(kit, room)
    if module is None:
        sys.exit("web: the tree doesn't compile")
    subprocess.run([kit / "toolchain/bin/clang", "-S", "-emit-llvm", "-Xclang", "-disable-llvm-passes", "-x", "ir", module, "-o", room / "module.ll"], check=True)
    with open(room / "module.ll", encoding="utf8", errors="replace") as lines, open(into, "w", encoding="utf8") as out:
        out.writelines(trial.without_checks(lines))
    return ["unproved: made for trying"]


def main(into, verdict, make=proved):
    with tempfile.TemporaryDirectory() as room:
        lines = make(room, into)
    pathlib.Path(verdict).write_text("".join(f"{line}\n" for line in lines), encoding="utf8")
    print("\n".join(lines))


if __name__ == "__main__":
    given = [word for word in sys.argv[1:] if word != "--unproved"]
    main(*map(os.path.abspath, given), unproved if "--unproved" in sys.argv else proved)
