"""The letters of a language in btx.lua, beside bibtex-search -letters.

    python3 lua/letters_check.py [--jobs N] [--seed N] SEARCH LUA WORD..

Runs the jobs of web/letters_check.py, N of them made by chance, by the program SEARCH (front/out/bibtex-search) and by lua/btx.lua in LUA, which is `texlua` or another command that runs a script. Of each
the list, the messages, the status and what is said of the letters have to be the same. BTX_LIBRARY names the library. It then checks that lua/btx_languages.lua is what the front end's table gives.
The last line is 'N passed, M failed'."""

import argparse
import base64
import os
import pathlib
import subprocess
import sys
import tempfile

ROOT = pathlib.Path(__file__).resolve().parent.parent
sys.path[:0] = [str(ROOT / "web")]
import languages  # noqa: E402
import letters_check  # noqa: E402

SCRIPT = """local btx = require("btx")
local function bytes_of(path)
    local file = io.open(path, "rb")
    local bytes = file and file:read("*a")
    if file then file:close() end
    return bytes
end
local function write(path, bytes)
    local file = io.open(path, "wb")
    file:write(bytes)
    file:close()
end
local utf8 = { bytes = false, utf8 = true }
for line in io.lines("jobs") do
    local folder, letters, text, budget = line:match("^(%S+) (%S+) (%S+) (%S+)$")
    local options = { letters = letters, utf8 = utf8[text], budget = tonumber(budget) }
    local list, log, report, events, notes = btx.run("job", function(name) return bytes_of(folder .. "/" .. name) end, options)
    local lines = {}
    for number, event in ipairs(events) do
        lines[number] = event.text .. "\\n"
    end
    assert(table.concat(lines) == log, "the events aren't the lines of the log")
    write(folder .. "/list", list)
    write(folder .. "/log", log)
    write(folder .. "/said", report.status .. "\\n" .. table.concat(notes, "\\n"))
end
"""


def write_jobs(room, jobs):
    """Writes a folder for each job, and a list of them."""
    lines = []
    for number, job in enumerate(jobs):
        folder = room / str(number)
        folder.mkdir()
        for name, text in job.files.items():
            (folder / name).write_bytes(text)
        lines.append(f"{number} {job.language} {job.text or 'auto'} {job.budget}\n")
    (room / "jobs").write_text("".join(lines))
    (room / "run.lua").write_text(SCRIPT)


def by_lua(folder):
    """What btx.lua answered, as letters_check.by_search has it."""
    status, *notes = (folder / "said").read_text(encoding="utf8").splitlines()
    messages = letters_check.shown(letters_check.of_program((folder / "log").read_bytes()))
    return {"list": base64.b64encode((folder / "list").read_bytes()).decode(), "messages": messages, "status": int(status), "notes": notes}


def compare(search, lua, jobs, room):
    """What differs, a line each."""
    write_jobs(room, jobs)
    environment = {**os.environ, "LUA_PATH": f"{ROOT}/lua/?.lua;;", "LUAINPUTS": f"{ROOT}/lua:"}
    ran = subprocess.run([*lua, "run.lua"], cwd=room, env=environment, stdin=subprocess.DEVNULL, capture_output=True, text=True, errors="replace")
    if ran.returncode:
        yield f"{lua}: {ran.stdout[-2000:]}{ran.stderr[-2000:]}"
        return
    scratch = room / "scratch"
    scratch.mkdir()
    for number, job in enumerate(jobs):
        wanted, found = letters_check.by_search(search, scratch, job), by_lua(room / str(number))
        differing = [(name, wanted[name], found[name]) for name in wanted if wanted[name] != found[name]]
        if differing:
            yield f"job {number}, {job.language}, text {job.text}: {differing} {str(job.files)[:3000]}"


def main():
    words = argparse.ArgumentParser(description="The letters of a language in btx.lua, beside bibtex-search.")
    words.add_argument("--jobs", type=int, default=100)
    words.add_argument("--seed", type=int, default=3)
    words.add_argument("search")
    words.add_argument("lua", nargs=argparse.REMAINDER)
    given = words.parse_args()
    os.environ.update({"BSTINPUTS": "", "BIBINPUTS": ""})
    jobs = letters_check.all_jobs(given.jobs, given.seed)
    with tempfile.TemporaryDirectory() as room:
        faults = list(compare(os.path.abspath(given.search), given.lua, jobs, pathlib.Path(room)))
    if languages.OF_LUA.read_text(encoding="utf8") != languages.lua(languages.sources()):
        faults.append("lua/btx_languages.lua isn't what the front end's tables give: run python3 web/languages.py --lua")
    print("".join(f"FAILED: {fault}\n" for fault in faults), end="")
    print(f"{len(jobs) + 1 - len(faults)} passed, {len(faults)} failed")
    return bool(faults)


if __name__ == "__main__":
    sys.exit(main())
