"""Whether a function of shim.c of another type than the library calls is seen when the module is linked.

    python3 web/border_check.py

It links the library's object, which web/build leaves in web/out, with shim.c, and with copies of shim.c in each of which one function has another type: the first has to be linked, and the others refused.
The last line is 'N passed, M failed'."""

import pathlib
import subprocess
import tempfile

HERE = pathlib.Path(__file__).resolve().parent
OBJECT = HERE / "out/library.o"
# Each function that the library calls, as shim.c has it, and the same with another type.
SPOILT = (
    ("answer rattle_alloc(u64 bytes, u64 align)", "answer rattle_alloc(u64 bytes, size align)"),
    ("answer rattle_realloc(void *at, u64 old, u64 bytes, u64 align)", "answer rattle_realloc(void *at, u64 old, u64 bytes)"),
    ("void rattle_dealloc(void *at)", "u64 rattle_dealloc(void *at)"),
    ("wide __multi3(wide a, wide b)", "u64 __multi3(u64 a, wide b)"),
)


def linked(shim):
    """Whether the library is linked with this text of shim.c, and what was said."""
    with tempfile.TemporaryDirectory() as room:
        file = pathlib.Path(room, "shim.c")
        file.write_text(shim, encoding="utf8")
        ran = subprocess.run([HERE / "link", OBJECT, file, pathlib.Path(room, "out.wasm")], stdout=subprocess.PIPE, stderr=subprocess.STDOUT, text=True)
        return ran.returncode == 0, ran.stdout


def faults(shim):
    done, said = linked(shim)
    if not done:
        yield f"shim.c isn't linked: {said}"
    for function, other in SPOILT:
        done, said = linked(shim.replace(function, other))
        if function not in shim:
            yield f"there is no {function}"
        elif done or "signature mismatch" not in said:
            yield f"{other}: {'is linked' if done else said}"


def main():
    found = list(faults((HERE / "shim.c").read_text(encoding="utf8")))
    for fault in found:
        print(f"FAILED: {fault}")
    print(f"{len(SPOILT) + 1 - len(found)} passed, {len(found)} failed")
    return bool(found)


if __name__ == "__main__":
    raise SystemExit(main())
