-- BibTeX, proved, in LuaTeX: a reference list without a second program.
--
--     \directlua{require("btx")}                                                            in the preamble
--     \directlua{require("btx").bibliography{style = "plain", databases = {"refs"}}}         where the list is to stand
--
-- typesets the list of what the document cited in its last run. LaTeX empties the .aux file where the document begins, so the module reads it
-- when it is loaded, in the preamble. It calls the library libbtx.so.1 by LuaTeX's ffi, which TeX offers only with --shell-escape. Files are
-- found by TeX's own search, and read only where openin_any allows it.

local btx = {}

-- What library/btx.h declares of it.
local DECLARED = [[
    typedef struct { const char *at; size_t len; } btx_text;
    typedef struct { btx_text name, bytes; bool is_there; } btx_file;
    typedef struct { uint64_t budget; uint32_t min_crossrefs, line, entry_max, global_max; bool utf8; } btx_options;
    typedef struct { uint32_t status, end_; uint64_t steps, deepest, warnings, errors; size_t list_len, log_len; } btx_report;
    uint32_t btx_needs(const char *job, size_t job_len, const btx_file *files, size_t files_len, char *names, size_t room, size_t *len);
    typedef struct { uint64_t at, len, entry; uint32_t kind, met; } btx_event;
    uint32_t btx_run_events(const char *job, size_t job_len, const btx_file *files, size_t files_len, const btx_options *options,
                            char *list, size_t list_room, char *log, size_t log_room, btx_report *report,
                            btx_event *events, size_t events_room, size_t *events_len);
    typedef struct { btx_text name, text; } btx_string;
    typedef struct { uint32_t kind; bool is_whole; size_t start, end_, line, name_at, name_len, text_at, text_len; } btx_record;
    typedef struct { size_t records, texts; } btx_sizes;
    uint32_t btx_read(const char *file, size_t file_len, const char *text, size_t text_len, const btx_string *strings, size_t strings_len,
                      btx_record *records, size_t records_room, char *texts, size_t texts_room, btx_sizes *sizes);
    uint32_t btx_read_job(const char *job, size_t job_len, const btx_file *files, size_t files_len, const btx_options *options,
                          btx_record *records, size_t records_room, char *texts, size_t texts_room, btx_sizes *sizes);
    typedef struct { uint32_t verdict; uint64_t literals, bodies; size_t types_len, notes_len; } btx_verdict;
    uint32_t btx_check(const char *name, size_t name_len, const char *style, size_t style_len, uint64_t steps,
                       char *types, size_t types_room, char *notes, size_t notes_room, btx_verdict *verdict);
]]

-- The library, once it is loaded: LuaJIT takes declarations once.
local loaded

local function load_library()
    if loaded then
        return loaded.ffi, loaded.library
    end
    local is_there, ffi = pcall(require, "ffi")
    if not is_there or not ffi.cdef then
        error("btx needs LuaTeX's ffi: run lualatex with --shell-escape", 0)
    end
    ffi.cdef(DECLARED)
    local is_loaded, library = pcall(ffi.load, os.getenv("BTX_LIBRARY") or "libbtx.so.1")
    if not is_loaded then
        error("btx can't load its library: " .. tostring(library), 0)
    end
    loaded = { ffi = ffi, library = library }
    return ffi, library
end

-- What the library answers.
local DONE, REFUSED, FULL, ENDS = 0, 1, 4, 5
-- How a run ended that came to an end of its own, and one whose list is longer than its room.
local FINISHED, LIST_FULL = 0, 11
-- What a line of the log is, and where it was met.
local KINDS = { [0] = "plain", "warning", "error" }
local MET = { [0] = "files", "style", "databases", "execution", "end" }
-- What a record of a database is.
local PREAMBLE, STRING, ENTRY, FIELD, WRONG = 1, 2, 3, 4, 6
-- What is said of a style.
local VERDICTS = { [0] = "clean", "warnings", "incomplete" }
-- What the standard styles write for the months.
local MONTHS = {}
for month in ("January February March April May June July August September October November December"):gmatch("%a+") do
    MONTHS[month:sub(1, 3):lower()] = month
end
-- How many bytes an output may have at first and at most.
local FIRST_ROOM, MOST_ROOM = 65536, 1073741824

-- The room for an output of `wanted` items of `bytes` bytes, if that isn't longer than any may be.
local function room_for(what, wanted, bytes)
    if wanted * bytes > MOST_ROOM then
        error("btx: " .. what .. " are longer than " .. MOST_ROOM .. " bytes", 0)
    end
    return wanted
end

-- The lines of a text whose lines all end.
local function lines_of(text)
    local lines = {}
    for line in text:gmatch("([^\n]*)\n") do
        lines[#lines + 1] = line
    end
    return lines
end

-- The files as an array for C; ffi keeps Lua's strings as they are, and copies none.
local function array_of(ffi, files)
    local array = ffi.new("btx_file[?]", #files + 1)
    for place, file in ipairs(files) do
        local its = array[place - 1]
        its.name.at, its.name.len = file.name, #file.name
        its.bytes.at, its.bytes.len = file.bytes or "", #(file.bytes or "")
        its.is_there = file.bytes ~= nil
    end
    return array
end

-- The names of the files that the job needs of which nothing is known yet.
local function needed(ffi, library, job, files)
    local room, length = 4096, ffi.new("size_t[1]")
    while true do
        local names = ffi.new("char[?]", room)
        local answer = library.btx_needs(job, #job, array_of(ffi, files), #files, names, room, length)
        local size = tonumber(length[0])
        if answer ~= DONE and answer ~= ENDS then
            error("btx was refused memory", 0)
        elseif size <= room then
            return lines_of(ffi.string(names, size))
        end
        room = room_for("the names of files", size, 1)
    end
end

-- The files that a job needs, as a finder gives them.
local function gathered(ffi, library, job, finder)
    if job:find("\n", 1, true) then
        error("btx: the name of a job has no line end", 0)
    end
    local files = {}
    local new = needed(ffi, library, job, files)
    while #new > 0 do
        for _, name in ipairs(new) do
            files[#files + 1] = { name = name, bytes = finder(name) }
        end
        new = needed(ffi, library, job, files)
    end
    return files
end

-- btx.run(job, finder, options) -> list, log, report, events, notes
--
-- finder(name) gives the bytes of the file of a name, or nil where there is none. options may have budget, min_crossrefs, line, entry_max,
-- global_max, utf8 and letters: a language whose letters are sorted and have their case as `bibtex-search -letters=LANG` does it, or "no". With letters
-- text is read by bytes, and once more by letters of UTF-8 where that would leave half a letter, unless utf8 says how; and the notes say what became of
-- the list's letters, a line each. The report has status (0 without errors, 2 with some, 3 at a limit, 4 stopped), is_finished, steps, warnings and
-- errors. An event is a line of the log: its text; its kind, which is "plain", "warning" or "error"; where it was met, which is "files", "style",
-- "databases", "execution" or "end"; and the number of the current entry, from 1, if there is one. The library says what a line is, whatever its text.
function btx.run(job, finder, options)
    local ffi, library = load_library()
    local files, given = gathered(ffi, library, job, finder), options or {}
    local function run(over, own)
        local asked = ffi.new("btx_options", given.budget or 1000000000, given.min_crossrefs or 2, given.line or 79, own.entry_max or given.entry_max or 500,
            own.global_max or given.global_max or 200000, own.utf8 or false)
        return btx.run_over(ffi, library, job, over, asked)
    end
    if given.letters then
        return btx.run_with_letters(files, given, run)
    end
    return run(files, { utf8 = given.utf8 })
end

-- Runs a job with the letters of a language. `run` gives what a run over these files gives, with options of its own.
function btx.run_with_letters(files, given, run)
    local text = given.utf8 == nil and "auto" or given.utf8 and "utf8" or "bytes"
    local limits = { entry_max = given.entry_max or 500, global_max = given.global_max or 200000 }
    local made, notes = require("btx_letters").run(given.letters, files, text, limits, function(over, own)
        local list, log, report, events = run(over, own)
        return { list = list, log = log, report = report, events = events }
    end)
    return made.list, made.log, made.report, made.events, notes
end

-- Runs the job over files that are all known; where an output is longer than its room, it gets more.
function btx.run_over(ffi, library, job, files, asked)
    local report, rooms, events_len = ffi.new("btx_report"), { list = FIRST_ROOM, log = FIRST_ROOM }, ffi.new("size_t[1]")
    local array, events_room = array_of(ffi, files), 1024
    while true do
        local list, log, events = ffi.new("char[?]", rooms.list), ffi.new("char[?]", rooms.log), ffi.new("btx_event[?]", events_room)
        local answer = library.btx_run_events(job, #job, array, #files, asked, list, rooms.list, log, rooms.log, report, events, events_room, events_len)
        local full = tonumber(report.end_) == LIST_FULL and "list" or "log"
        local count = answer == DONE and tonumber(events_len[0]) or 0
        if answer == DONE and count <= events_room then
            return ffi.string(list, report.list_len), ffi.string(log, report.log_len), {
                status = tonumber(report.status), is_finished = tonumber(report.end_) == FINISHED, steps = tonumber(report.steps), warnings = tonumber(report.warnings), errors = tonumber(report.errors),
            }, btx.events_of(ffi.string(log, report.log_len), events, count)
        elseif answer == DONE then
            events_room = room_for("the events", count, ffi.sizeof("btx_event"))
        elseif answer ~= FULL then
            error("btx: the library answered " .. tonumber(answer), 0)
        elseif rooms[full] >= MOST_ROOM then
            error("btx: the " .. full .. " is longer than " .. MOST_ROOM .. " bytes", 0)
        else
            rooms[full] = math.min(rooms[full] * 8, MOST_ROOM)
        end
        -- (the rooms that were too small are given back first)
        list, log, events = nil, nil, nil
        collectgarbage()
    end
end

-- The events of a log as tables.
-- (a number that is none of an entry is the greatest of 64 bits, which is negative where numbers have a sign)
function btx.events_of(log, events, count)
    local found = {}
    for number = 1, count do
        local its = events[number - 1]
        local at, entry = tonumber(its.at), tonumber(its.entry)
        found[number] = {
            text = log:sub(at + 1, at + tonumber(its.len)), kind = KINDS[tonumber(its.kind)], met = MET[tonumber(its.met)],
            entry = entry >= 0 and entry < 2 ^ 53 and entry + 1 or nil,
        }
    end
    return found
end

-- The strings that are known before a database as an array for C, and how many there are.
local function strings_of(ffi, strings)
    local names = {}
    for name in pairs(strings) do
        names[#names + 1] = name
    end
    local array = ffi.new("btx_string[?]", #names + 1)
    for place, name in ipairs(names) do
        local its = array[place - 1]
        its.name.at, its.name.len, its.text.at, its.text.len = name, #name, strings[name], #strings[name]
    end
    return array, #names
end

-- btx.read(text, strings) -> {entries = .., strings = .., preamble = .., mistakes = ..}
--
-- Reads the text of a database, whatever a document cites. An entry has type, key, line and fields, by names in lower case; entries are in their order,
-- and base.by_key[key], with the key in lower case, is the first with that key. A value is as a run stores it. strings are known before the database: the names of months, if
-- none are handed in. A mistake is the line that a run logs of it.
function btx.read(text, strings)
    local ffi, library = load_library()
    local known, count = strings_of(ffi, strings or MONTHS)
    local answer, base = btx.in_rooms(ffi, #text, function(...)
        return library.btx_read("database.bib", 12, text, #text, known, count, ...)
    end)
    if answer == REFUSED then
        error("btx: a database has at most 2147483647 bytes", 0)
    elseif answer ~= DONE then
        error("btx was refused memory", 0)
    end
    return base
end

-- btx.read_job(job, finder, options) -> {entries = .., by_key = ..}
--
-- Reads what a run of the job has of its databases: the entries of its list, in their order, with what they inherit. An entry has type, key and fields as those of btx.read, but no line:
-- its type is that of a function of the style, or "", and its fields are those that the style declares. fields.crossref is there if the parent is in the list. Answers nil where
-- the run ends before it has a library: its log says why. Of the options min_crossrefs counts.
function btx.read_job(job, finder, options)
    local ffi, library = load_library()
    local files, given, length = gathered(ffi, library, job, finder), options or {}, 0
    for _, file in ipairs(files) do
        length = length + (file.name:match("%.bib$") and file.bytes and #file.bytes or 0)
    end
    local asked = ffi.new("btx_options", 1, given.min_crossrefs or 2, 79, 250, 20000, false)
    local array = array_of(ffi, files)
    local answer, base = btx.in_rooms(ffi, length, function(...)
        return library.btx_read_job(job, #job, array, #files, asked, ...)
    end)
    if answer ~= DONE and answer ~= ENDS then
        error("btx was refused memory", 0)
    end
    return base
end

-- What a call answers that writes the records of databases, in rooms that grow as they need to; and what they are of, if it is done.
function btx.in_rooms(ffi, length, read)
    local of_record, sizes = ffi.sizeof("btx_record"), ffi.new("btx_sizes")
    local records_room = math.min(math.floor(length / 24) + 64, math.floor(MOST_ROOM / of_record))
    local texts_room = math.min(2 * length + 64, MOST_ROOM)
    while true do
        local records, texts = ffi.new("btx_record[?]", records_room), ffi.new("char[?]", texts_room)
        local answer = read(records, records_room, texts, texts_room, sizes)
        if answer == DONE then
            return answer, btx.base_of(ffi, records, tonumber(sizes.records), texts)
        elseif answer ~= FULL then
            return answer
        end
        records_room = room_for("the records of databases", math.max(records_room, tonumber(sizes.records)), of_record)
        texts_room = room_for("the texts of databases", math.max(texts_room, tonumber(sizes.texts)), 1)
        -- (the rooms that were too small are given back first)
        records, texts = nil, nil
        collectgarbage()
    end
end

-- The database that records are of.
function btx.base_of(ffi, records, count, texts)
    local base, entry, seen = { entries = {}, by_key = {}, strings = {}, preamble = "", mistakes = {} }, nil, {}
    for number = 0, count - 1 do
        local its = records[number]
        local kind = tonumber(its.kind)
        local name = ffi.string(texts + its.name_at, its.name_len):lower()
        local text = ffi.string(texts + its.text_at, its.text_len)
        if kind == ENTRY then
            local line = tonumber(its.line)
            entry, seen = { type = name, key = text, line = line > 0 and line or nil, fields = {} }, {}
            base.entries[#base.entries + 1] = entry
            base.by_key[text:lower()] = base.by_key[text:lower()] or entry
        elseif kind == FIELD then
            -- (of fields with one name the first counts, also where its text is too long and left out)
            if its.is_whole and not seen[name] then
                entry.fields[name] = text
            end
            seen[name] = true
        elseif kind == STRING and its.is_whole then
            base.strings[name] = text
        elseif kind == PREAMBLE then
            base.preamble = base.preamble .. text
        elseif kind == WRONG then
            base.mistakes[#base.mistakes + 1] = text
        end
    end
    return base
end

-- btx.check(style, name, steps) -> {verdict = .., types = .., bodies = .., literals = .., warnings = .., causes = .., is_partial = ..}
--
-- Says of the text of a style, before any run, whether it is clean, in at most `steps` steps of the check: 2,000,000 if nothing is said. `name` is that of its file. verdict is "clean",
-- "warnings" or "incomplete". Of a clean style no run logs a fault of the stack or of kinds, for entries of `types` and of types that it doesn't know; bodies is how many of functions are
-- open at once at most, and literals how many the stack has. Each of `warnings` is a place where a run may log a fault: its fault ("stack", "kind", "equal", "variable", "entry" or
-- "left"), is_first, the line of the style, types, and notes, which are the library's lines of it (library/btx.3). Those of each cause are in causes.
function btx.check(style, name, steps)
    local ffi, library = load_library()
    local file, verdict, types_room, notes_room = name or "style.bst", ffi.new("btx_verdict"), FIRST_ROOM, FIRST_ROOM
    while true do
        local types, notes = ffi.new("char[?]", types_room), ffi.new("char[?]", notes_room)
        local answer = library.btx_check(file, #file, style, #style, steps or 2000000, types, types_room, notes, notes_room, verdict)
        local types_len, notes_len = tonumber(verdict.types_len), tonumber(verdict.notes_len)
        if answer == DONE then
            local said = btx.said_of(ffi.string(notes, notes_len))
            said.verdict, said.types = VERDICTS[tonumber(verdict.verdict)], lines_of(ffi.string(types, types_len))
            said.bodies, said.literals = tonumber(verdict.bodies), tonumber(verdict.literals)
            return said
        elseif answer == REFUSED then
            error("btx: a style has at most 2147483647 bytes", 0)
        elseif answer ~= FULL then
            error("btx was refused memory", 0)
        end
        types_room = room_for("the names of types", math.max(types_room, types_len), 1)
        notes_room = room_for("the notes on a style", math.max(notes_room, notes_len), 1)
    end
end

-- What the notes of a check say: a block of lines for each warning, and then for each cause.
function btx.said_of(notes)
    local said, block = { warnings = {}, causes = {}, is_partial = false }, nil
    for _, note in ipairs(lines_of(notes)) do
        local word, rest = note:match("^(%S*) ?(.*)$")
        if word == "warning" then
            block = { fault = rest:match("^%S+"), is_first = rest:match(" first$") ~= nil, types = {}, notes = {} }
            said.warnings[#said.warnings + 1] = block
        elseif word == "cause" then
            block = { notes = {} }
            said.causes[#said.causes + 1] = block
        elseif word == "partial" then
            said.is_partial, block = true, nil
        end
        if block then
            btx.add_note(block, word, rest, note)
        end
    end
    return said
end

-- Adds a line to the block of a warning or a cause. Its line in the style is that of the token; of a command, where there is no token.
function btx.add_note(block, word, rest, note)
    block.notes[#block.notes + 1] = note
    if word == "type" and block.types then
        block.types[#block.types + 1] = rest
    elseif word == "item" or word == "at" or word == "cause" then
        block.line = tonumber(rest:match("^%S+ (%d+)"))
    end
end

-- Where TeX finds a file. kpse.in_name_ok obeys openin_any.
local function path_of(name)
    local path = name
    if name:match("%.bst$") then
        path = kpse.find_file(name, "bst")
    elseif name:match("%.bib$") then
        path = kpse.find_file(name, "bib")
    end
    return path and (not kpse.in_name_ok or kpse.in_name_ok(path)) and path or nil
end

local function bytes_of(path)
    local file = path and io.open(path, "rb")
    if not file then
        return nil
    end
    local bytes = file:read("*a")
    file:close()
    return bytes
end

-- btx.find(name): the bytes of the file where TeX finds it.
function btx.find(name)
    return bytes_of(path_of(name))
end

-- The text of the first error, if there is one.
local function first_error(events)
    for _, event in ipairs(events) do
        if event.kind == "error" then
            return event.text
        end
    end
end

-- btx.bibliography{style = .., databases = {..}, keys = {..}, options = {..}}: typesets the list.
--
-- keys are the cite keys; without them those that the document cited in its last run are taken. An error stops TeX with an error message that
-- has the log's first error, with its file and line.
function btx.bibliography(wanted)
    local job = "btx-" .. tex.jobname
    if not wanted.keys and #btx.cited == 0 then
        texio.write_nl("term and log", "btx: nothing is cited yet: load btx in the preamble, and run LaTeX again")
        return
    end
    local lines = wanted.keys and { "\\citation{" .. table.concat(wanted.keys, ",") .. "}" } or { table.unpack(btx.cited) }
    lines[#lines + 1] = "\\bibdata{" .. table.concat(wanted.databases, ",") .. "}"
    lines[#lines + 1] = "\\bibstyle{" .. wanted.style .. "}"
    local aux = table.concat(lines, "\n") .. "\n"
    local list, log, report, events, notes = btx.run(job, function(name)
        return name == job .. ".aux" and aux or btx.find(name)
    end, wanted.options)
    texio.write_nl("log", table.concat(notes or {}, "\n") .. "\n" .. log)
    if report.status ~= 0 then
        tex.error("btx: " .. (first_error(events) or log:match("(Ended: [^,\n]*)") or "no list"))
    end
    tex.print(btx.lines(list))
end

-- The lines of a text, as tex.print takes them.
btx.lines = lines_of

-- The \citation lines of an .aux file and of those that it includes, added to `into` where that is given. `seen` has the files that were read.
function btx.citations(path, seen, into)
    local found, known = into or {}, seen or {}
    if known[path] then
        return found
    end
    known[path] = true
    for line in (bytes_of(path_of(path)) or ""):gmatch("[^\n]+") do
        local included = line:match("^\\@input{([^}]*)}")
        if line:match("^\\citation{") then
            found[#found + 1] = line
        elseif included then
            btx.citations(included, known, found)
        end
    end
    return found
end

-- What the document cited in its last run.
btx.cited = tex and tex.jobname and btx.citations(tex.jobname .. ".aux") or {}

return btx
