-- Letters of a language in lists of references, as `bibtex-search -letters=LANG` has them: the job runs over databases in which each such letter of a value is a
-- special character, and what it writes is turned back. For BibTeX `{\xy{key}}` is one letter: `purify$` keeps the key alone, which is what the letter sorts as,
-- `change.case$` changes the key's case, and names and prefixes keep it whole. `x` and `y` are control characters that say which letter it is.
--
-- It answers as the front end does (front/src/letter_run.rs, letter_codes.rs and letter_values.rs), and has its tables.

local tables, may_print_keys = require("btx_languages"), require("btx_style_keys")

local letters = {}

-- A byte that sorts after each letter of ASCII, which a `*` stands for in the table, and one at the end of each key of a run that shows whether keys are printed. `purify$` keeps both.
local AFTER, MARK = "\255", "\254"
-- The control characters of a code: those that are no whitespace; the value of each, and how many of them there are.
local DIGITS, VALUES, BASE = {}, {}, 0
for byte = 1, 31 do
    if byte < 9 or byte > 13 then
        DIGITS[BASE], VALUES[string.char(byte)], BASE = string.char(byte), BASE, BASE + 1
    end
end
local DIGIT = "[\1-\8\14-\31]"
-- A byte of a value that is neither a delimiter nor whitespace.
local BARE = '[^{}" \t\r\n]'
local CODE, REST = "{\\(" .. DIGIT .. ")(" .. DIGIT .. "){([A-Za-z\254\255]*)}}", "[\1-\8\14-\31\254\255]"
-- A letter of a text, and the braces and letters that may matter: in a language with rules for letters of ASCII these, too.
local LETTER, OUTSIDE_ASCII, ANY_LETTER = "[^\128-\191][\128-\191]*", "()([{}\194-\244][\128-\191]*)()", "()([A-Za-z{}\194-\244][\128-\191]*)()"
local MOST_LONGER = 1000000
-- What a letter of UTF-8 is, by its first byte, and what more than that byte may be there of one that is cut.
local WHOLE = {
    "^[\194-\223][\128-\191]()", "^\224[\160-\191][\128-\191]()", "^[\225-\236\238\239][\128-\191][\128-\191]()", "^\237[\128-\159][\128-\191]()", "^\240[\144-\191][\128-\191][\128-\191]()",
    "^[\241-\243][\128-\191][\128-\191][\128-\191]()", "^\244[\128-\143][\128-\191][\128-\191]()",
}
local BEGUN = {
    "^\224[\160-\191]()", "^[\225-\236\238\239][\128-\191]()", "^\237[\128-\159]()", "^\240[\144-\191][\128-\191]?()", "^[\241-\243][\128-\191][\128-\191]?()",
    "^\244[\128-\143][\128-\191]?()",
}

-- Why letters are left out: an error that is thrown.
local function leave_out(why)
    error({ why = why }, 0)
end

local function is_ascii(text)
    return not text:find("[\128-\255]")
end

-- Where the first byte from a place on stands that is no part of a letter of UTF-8, if there is one.
local function fault_of(text, from)
    local at = text:find("[\128-\255]", from)
    while at do
        local after
        for _, pattern in ipairs(WHOLE) do
            after = after or text:match(pattern, at)
        end
        if not after then
            return at
        end
        at = text:find("[\128-\255]", after)
    end
end

-- A language.

local function key_of(written)
    return (written:gsub("%*", AFTER))
end

local function length_of(text)
    return select(2, text:gsub(LETTER, ""))
end

-- A letter in lower case. Only letters that sort as something have another case here.
local function lower(letter)
    local known = tables.CASES[letter]
    return known and known.small or letter:lower()
end

local function language_named(name)
    local language = { is_dotless = name == "tr", keys = {}, several = {} }
    for _, rules in ipairs({ tables.ROOT, tables.LANGUAGES[name] }) do
        for _, rule in ipairs(rules) do
            if rule[1]:find("[%z\1-\127]") then
                table.insert(language.several, { letters = rule[1], key = key_of(rule[2]) })
            else
                for letter in rule[1]:gmatch(LETTER) do
                    language.keys[letter] = key_of(rule[2])
                end
            end
        end
    end
    table.sort(language.several, function(one, other) return length_of(one.letters) > length_of(other.letters) end)
    language.has_rules_for_ascii = language.is_dotless or #language.several > 0
    return language
end

-- What the letter at a place of a text sorts as by being one with those that follow.
local function key_of_several(language, text, at)
    for _, rule in ipairs(language.several) do
        local following = text:sub(at, at + 2 * #rule.letters):gsub(LETTER, lower)
        if following:sub(1, #rule.letters) == rule.letters then
            return rule.key
        end
    end
end

-- What a letter at a place of a text sorts as; nil where that is itself. A foreign text has no letter outside ASCII, so that its `I` may be one of another language.
local function key_in(language, letter, text, at, is_foreign)
    if language.is_dotless and letter == "I" then
        return language.keys["ı"]
    elseif letter == "İ" or language.is_dotless and letter == "i" and not is_foreign then
        return "i"
    elseif #letter == 1 then
        return key_of_several(language, text, at)
    end
    return language.keys[lower(letter)]
end

-- A letter that gets a code: itself, it in the other case, and whether it is a capital.
local function letter_of(language, itself, is_foreign)
    local known = tables.CASES[itself]
    local is_capital = known and known.is_capital or itself:find("^[A-Z]") ~= nil
    local other = known and known.other or is_capital and itself:lower() or itself:upper()
    if language.is_dotless and itself == "I" and not is_foreign then
        other = "ı"
    elseif language.is_dotless and itself == "i" then
        other = "İ"
    elseif itself == "İ" then
        other, is_capital = "i", true
    end
    return { itself = itself, other = other, is_capital = is_capital }
end

-- Codes.

-- The code of a letter that has this key; nil where there are too many letters. The `I` of a foreign text is another one.
local function code_of(codes, letter, key, is_foreign)
    local known = is_foreign and letter == "I" and "foreign I" or letter
    local number = codes.numbers[known]
    if not number then
        number = codes.count
        if number == BASE * BASE then
            return nil
        end
        codes.letters[number], codes.numbers[known], codes.count = letter_of(codes.language, letter, is_foreign), number, number + 1
    end
    local cased = codes.letters[number].is_capital and key:gsub("[a-z]", string.upper) or key
    return "{\\" .. DIGITS[math.floor(number / BASE)] .. DIGITS[number % BASE] .. "{" .. cased .. codes.mark .. "}}"
end

-- A text of a value with its letters coded.
local function coded_text(codes, text)
    local language, is_foreign = codes.language, is_ascii(text)
    if is_foreign and not language.has_rules_for_ascii then
        return text
    end
    local parts, depth, copied = {}, 0, 1
    for at, letter, after in text:gmatch(language.has_rules_for_ascii and ANY_LETTER or OUTSIDE_ASCII) do
        depth = depth + (letter == "{" and 1 or letter == "}" and -1 or 0)
        local key = (depth <= 0 or codes.are_in_braces) and letter:find("^[^{}]") and key_in(language, letter, text, at, is_foreign)
        local code = key and code_of(codes, letter, key, is_foreign)
        if code then
            parts[#parts + 1] = text:sub(copied, at - 1)
            parts[#parts + 1] = code
            copied = after
        end
    end
    return table.concat(parts) .. text:sub(copied)
end

-- What a run wrote, with each code turned back into its letter, in the case that the run gave it.
local function turned_back(codes, text)
    return (text:gsub(CODE, function(high, low, key)
        local letter = codes.letters[VALUES[high] * BASE + VALUES[low]]
        local first = key:match("[A-Za-z]")
        return letter and (first and (first:find("[A-Z]") ~= nil) ~= letter.is_capital and letter.other or letter.itself)
    end))
end

-- Values. What can't go on is nil.

-- Where a text in a value ends, at the brace or the quote after it.
local function end_of_text(text, at, is_quoted)
    local depth = 0
    while true do
        local found, _, byte = text:find('([{}"])', at)
        if not found or depth == 0 and (byte == "}" or byte == '"' and is_quoted) then
            return found
        end
        depth, at = depth + (byte == "{" and 1 or byte == "}" and -1 or 0), found + 1
    end
end

-- The texts in a value, which stand in braces or quotes: of each where it begins, and where it has ended.
local function parts_of(value)
    local parts, at = {}, value:find('[{"]')
    while at do
        local close = end_of_text(value, at + 1, value:sub(at, at) == '"') or #value + 1
        parts[#parts + 1] = { at + 1, close }
        at = value:find('[{"]', close + 1)
    end
    return parts
end

-- The names of strings in a value, in lower case, added to a list: they stand between its texts.
local function add_names(names, value)
    local at, pieces = 1, {}
    for number, part in ipairs(parts_of(value)) do
        pieces[number], at = value:sub(at, part[1] - 1), part[2] + 1
    end
    pieces[#pieces + 1] = value:sub(at)
    for _, piece in ipairs(pieces) do
        for name in piece:gmatch('[^%z\1-\32"#{}]+') do
            if not name:find("^[0-9]") then
                names[#names + 1] = name:lower()
            end
        end
    end
    return names
end

-- Reads what stands in a database, from a place on.
local Reader = {}
Reader.__index = Reader

-- Takes the bytes that a pattern names.
function Reader:take(pattern)
    local taken = self.text:match(pattern, self.at)
    self.at = self.at + #taken
    return taken
end

-- The byte after whitespace, which isn't taken; nil at the end.
function Reader:next()
    self:take("^[ \t\r\n]*")
    return self.at <= #self.text and self.text:sub(self.at, self.at) or nil
end

-- Takes one of these bytes.
function Reader:expect(one, other)
    local byte = self:next()
    if byte == nil or byte ~= one and byte ~= other then
        return nil
    end
    self.at = self.at + 1
    return byte
end

function Reader:name()
    local first = self:next()
    if not first or first:find("[0-9]") then
        return nil
    end
    local name = self:take("^[^%z\1-\32\"#%%'(),={}]*")
    return name ~= "" and name:lower() or nil
end

-- The byte that closes an item, after its opening one.
function Reader:closing()
    local opening = self:expect("{", "(")
    return opening and (opening == "{" and "}" or ")")
end

-- The key of an entry, or the name of a string, of which a `=` ends it, too.
function Reader:key(closing, is_text)
    return self:take("^[^, \t\r\n" .. (closing == "}" and "}" or "") .. (is_text and "=" or "") .. "]*")
end

-- Takes a part of a value: a text, digits, or the name of a string; whether one is there.
function Reader:part()
    local byte = self:next()
    if byte ~= "{" and byte ~= '"' then
        return byte ~= nil and self:take(byte:find("[0-9]") and "^[0-9]*" or "^[^%z\1-\32\"#%%'(),={}]*") ~= ""
    end
    local close = end_of_text(self.text, self.at + 1, byte == '"')
    self.at = close or #self.text + 1
    if not close or byte == '"' and self.text:sub(close, close) == "}" then
        return false
    end
    self.at = close + 1
    return true
end

-- Takes a value: where it begins, and where it has ended.
function Reader:value()
    if not self:next() then
        return nil
    end
    local start = self.at
    while self:part() do
        local after = self.at
        if self:next() ~= "#" then
            self.at = after
            return { start, after }
        end
        self.at = self.at + 1
    end
end

local function is_entry(kind)
    return kind ~= "comment" and kind ~= "preamble" and kind ~= "string"
end

-- Reads the key and the fields of an entry; whether it could be read to its end.
function Reader:entry(item, closing)
    if not self:next() then
        return false
    end
    item.key = self:key(closing, false):lower()
    local byte = self:expect(",", closing)
    while byte == "," do
        if self:next() == closing then
            self.at = self.at + 1
            return true
        end
        local name = self:name()
        local value = name and self:expect("=") and self:value()
        if not value then
            return false
        end
        item.fields[#item.fields + 1] = { name, value }
        byte = self:expect(",", closing)
    end
    return byte == closing
end

-- Reads a string or a preamble; whether it could be read to its end.
function Reader:string(item, closing)
    local name
    if item.type == "string" then
        name = self:name()
        if not name or not self:expect("=") then
            return false
        end
    end
    item.value = self:value()
    item.name = item.value and name
    return item.value and self:expect(closing) == closing
end

-- An item after its `@`: its type, its key and its fields; of a string its name and value; and whether it could be read to its end.
function Reader:item()
    local item = { type = self:name() or "", fields = {} }
    local closing = item.type ~= "" and item.type ~= "comment" and self:closing()
    if closing and is_entry(item.type) then
        item.is_read = self:entry(item, closing)
    elseif closing then
        item.is_read = self:string(item, closing)
    end
    return item
end

-- The key that the value of a crossref field names: the value without its delimiters and the whitespace round it.
local function parent_in(value)
    local start = value:find(BARE)
    return start and value:sub(start, -value:reverse():find(BARE)):lower() or ""
end

-- The heads of all items of a text but comments, and of what looks like one in the text of an item: where the `@` stands, the type, and the key, which is nil where it may go on after what was read.
local function heads_of(text)
    local heads, start = {}, text:find("@", 1, true)
    while start do
        local read = setmetatable({ text = text:sub(start + 1, start + tables.OF_VALUES.LONGEST_HEAD - 1), at = 1 }, Reader)
        local kind = read:name()
        local closing = kind and read:closing()
        local key = closing and read:next() and read:key(closing, not is_entry(kind))
        local is_cut = read.at > #read.text and start + #read.text < #text
        if key and kind ~= "comment" then
            heads[#heads + 1] = { start = start, type = kind, key = not is_cut and key:lower() or nil }
        elseif not key and is_cut then
            heads[#heads + 1] = { start = start, type = "" }
        end
        start = text:find("@", start + 1, true)
    end
    return heads
end

-- The entries that the list may have: those that are cited, and their parents.
local Wanted = {}
Wanted.__index = Wanted

function Wanted:add(key)
    self.are_all = self.are_all or key == "*"
    self.count = self.count + (self.keys[key] and 0 or 1)
    self.keys[key] = true
end

function Wanted:cite(text)
    for line in (text .. "\n"):gmatch("([^\n]*)\n") do
        local list = line:gsub("[ \t\r]*$", ""):match("^\\citation{([^}]*)")
        for key in list and (list .. ","):gmatch("([^,]*),") or function() end do
            self:add(key:lower())
        end
    end
end

-- Reads an item that begins at a place of a database, and keeps what may be coded, and its type; where it ends.
local function read_item(database, start, wanted)
    local reader = setmetatable({ text = database.text, at = start + 1 }, Reader)
    local item = reader:item()
    local whole = database.text:sub(start, reader.at - 1)
    if fault_of(whole) then
        leave_out("NotUtf8")
    elseif whole:find(DIGIT) then
        leave_out("ControlCharacters")
    end
    wanted.types[item.type] = is_entry(item.type) or nil
    for _, field in ipairs(item.fields) do
        local name, value = field[1], database.text:sub(field[2][1], field[2][2] - 1)
        if tables.FIXED[name] then
            add_names(database.fixed, value)
        else
            database.values[#database.values + 1] = field[2]
        end
        if name == "crossref" then
            wanted:add(parent_in(value))
            -- (what a parent is that strings say isn't known here)
            wanted.are_all = wanted.are_all or #add_names({}, value) > 0
        end
    end
    if item.name then
        database.strings[#database.strings + 1] = { item.name, item.value }
    end
    return reader.at
end

-- Reads the items of a database that are wanted and weren't read yet, and adds their parents to what is wanted.
local function read_wanted(database, wanted)
    local after, unread = 1, {}
    for _, head in ipairs(database.heads) do
        -- (a head before that place stands in the text of an item)
        if head.start >= after then
            if head.type == "string" or head.type == "preamble" or wanted.are_all or not head.key or wanted.keys[head.key] then
                after = read_item(database, head.start, wanted)
            else
                unread[#unread + 1] = head
            end
        end
    end
    database.heads = unread
end

-- The strings whose values stay as they are: those that a field has which stays as it is, and those in the values of these.
local function fixed_strings(databases)
    local open, defined, fixed = {}, {}, {}
    for _, database in ipairs(databases) do
        for _, name in ipairs(database.fixed) do
            open[#open + 1] = name
        end
        for _, string in ipairs(database.strings) do
            defined[string[1]] = add_names(defined[string[1]] or {}, database.text:sub(string[2][1], string[2][2] - 1))
        end
    end
    while #open > 0 do
        local name = table.remove(open)
        for _, inner in ipairs(not fixed[name] and defined[name] or {}) do
            open[#open + 1] = inner
        end
        fixed[name] = true
    end
    return fixed
end

-- Where the values of a database stand that may be coded and have something to code, in their order.
local function values_of(database, fixed, has_rules_for_ascii)
    local values = {}
    for _, string in ipairs(database.strings) do
        if not fixed[string[1]] then
            database.values[#database.values + 1] = string[2]
        end
    end
    for _, value in ipairs(database.values) do
        if has_rules_for_ascii or not is_ascii(database.text:sub(value[1], value[2] - 1)) then
            values[#values + 1] = value
        end
    end
    table.sort(values, function(one, other) return one[1] < other[1] end)
    return values
end

-- The databases of a job, each with the values that may be coded; how many of these there are, and the types of the entries that the list may have.
local function databases_of(files, has_rules_for_ascii)
    local wanted, databases, count, rounds = setmetatable({ keys = {}, count = 0, are_all = false, types = {} }, Wanted), {}, 0, 0
    for _, file in ipairs(files) do
        if file.bytes and file.name:find("%.aux$") then
            wanted:cite(file.bytes)
        elseif file.bytes and file.name:find("%.bib$") then
            databases[#databases + 1] = { name = file.name, text = file.bytes, heads = heads_of(file.bytes), values = {}, strings = {}, fixed = {} }
        end
    end
    repeat
        local keys, are_all = wanted.count, wanted.are_all
        for _, database in ipairs(databases) do
            read_wanted(database, wanted)
        end
        local is_done = keys == wanted.count and are_all == wanted.are_all
        wanted.are_all, rounds = wanted.are_all or rounds == tables.OF_VALUES.MOST_ROUNDS, rounds + 1
    until is_done
    local fixed = fixed_strings(databases)
    for _, database in ipairs(databases) do
        database.values = values_of(database, fixed, has_rules_for_ascii)
        count = count + #database.values
    end
    return databases, count, wanted.types
end

-- A database whose values are coded.
local function coded_database(database, codes)
    local parts, copied = {}, 1
    for _, value in ipairs(database.values) do
        for _, part in ipairs(parts_of(database.text:sub(value[1], value[2] - 1))) do
            local start, after = value[1] + part[1] - 1, value[1] + part[2] - 1
            -- (an entry that stands in the text of another one is read with it, too)
            if start >= copied then
                parts[#parts + 1] = database.text:sub(copied, start - 1)
                parts[#parts + 1] = coded_text(codes, database.text:sub(start, after - 1))
                copied = after
            end
        end
    end
    return table.concat(parts) .. database.text:sub(copied)
end

-- Half letters, as the front end has them (front/src/half_letters.rs): bytes outside of letters of UTF-8 that a style made when it cut a text. A byte of a value that isn't UTF-8 itself stands in the
-- list as it is, and is no half letter. In a set of bytes each of them is "".

-- The bytes of the files whose names end so.
local function texts_of(files, ending)
    local texts = {}
    for _, file in ipairs(files) do
        if file.bytes and file.name:sub(-#ending) == ending then
            texts[#texts + 1] = file.bytes
        end
    end
    return texts
end

-- Adds the bytes from 128 on of a text that isn't UTF-8 to a set; none of one that is.
local function add_others(others, text)
    for byte in (fault_of(text) and text or ""):gmatch("[\128-\255]") do
        others[byte] = ""
    end
end

local function add_all(others, more)
    for byte in pairs(more) do
        others[byte] = ""
    end
end

-- The bytes of the values of an item that aren't UTF-8, from its `@` to the place after it. What can't be read as values counts as one.
local function others_of_item(text, item, start, after)
    local others, values = {}, { item.value }
    for number, field in ipairs(item.fields) do
        values[number] = field[2]
    end
    for _, value in ipairs(item.is_read and #values > 0 and values or { { start, after } }) do
        add_others(others, text:sub(value[1], value[2] - 1))
    end
    return others
end

-- Reads a database: its entries, of each key the first one, and the bytes of what isn't UTF-8. Of a comment the type alone is an item.
local function read_others(found, text, are_all)
    local start = text:find("@", 1, true)
    while start do
        local reader = setmetatable({ text = text, at = start + 1 }, Reader)
        local item = reader:item()
        local others = others_of_item(text, item, start, reader.at)
        add_all(not is_entry(item.type) and found.shared or are_all and found.all or {}, others)
        if item.key then
            found.entries[item.key] = found.entries[item.key] or { text = text, fields = item.fields, others = others }
        end
        start = text:find("@", reader.at, true)
    end
end

-- The bytes of the entry of a key and of its parents that aren't UTF-8; nil where there is none.
local function others_of_entry(found, key)
    local entry = key and found.entries[key]
    if entry and not entry.all then
        entry.all = {}
        add_all(entry.all, entry.others)
        for _, field in ipairs(entry.fields) do
            local parent = field[1] == "crossref" and found.entries[parent_in(entry.text:sub(field[2][1], field[2][2] - 1))]
            add_all(entry.all, parent and parent.others or {})
        end
    end
    return entry and entry.all
end

-- The bytes that lists of a job have from what isn't UTF-8: `shared` are those of keys, strings, preambles and of the style, which any part of a list may have, and `all` those of the entries that
-- it may have.
local function others_of_job(files)
    local found, wanted = { shared = {}, all = {}, entries = {} }, setmetatable({ keys = {}, count = 0, are_all = false }, Wanted)
    for _, text in ipairs(texts_of(files, ".aux")) do
        wanted:cite(text)
    end
    for _, text in ipairs(texts_of(files, ".bib")) do
        read_others(found, text, wanted.are_all)
    end
    for key in pairs(wanted.keys) do
        add_others(found.shared, key)
        add_all(found.all, not wanted.are_all and others_of_entry(found, key) or {})
    end
    -- (a style in another encoding is of a job in that one, where a value has it too)
    for _, text in ipairs((next(found.shared) or next(found.all)) and texts_of(files, ".bst") or {}) do
        add_others(found.shared, text)
    end
    return found
end

-- The key of a part of a list, without its `\bibitem`; nil where it isn't plain.
local function key_of_part(part)
    local from = part:match("^[ \t\n\f\r]*()")
    local start = part:sub(from, from) == "[" and (part:find("]{", from, true) or #part) + 1 or from
    local key = part:match("^{([^}]+)}", start)
    return key and key:lower()
end

-- What gives the key of the part of a list that has a place; nil where it isn't plain. A part begins with `\bibitem`. Places are asked for in their order.
local function keys_of(list)
    local parts, key = list:gmatch("()\\bibitem%f[^A-Za-z]()"), nil
    local start, after = parts()
    return function(place)
        local last
        while start and start < place do
            last, start, after = after, parts()
        end
        if last then
            key = key_of_part(list:sub(last, (start or 0) - 1))
        end
        return key
    end
end

-- The first line of a list, from 1, that has half a letter of UTF-8; nil where none has. The list of a run that was stopped may end inside a letter.
local function line_of_half_letter(list, is_stopped, found)
    local key_at, line, counted, at = keys_of(list), 1, 1, fault_of(list)
    while at do
        local after = at + 1
        for _, pattern in ipairs(BEGUN) do
            after = list:match(pattern, at) or after
        end
        line, counted = line + select(2, list:sub(counted, at - 1):gsub("\n", "")), at
        local of_entry = others_of_entry(found, key_at(at)) or found.all
        local is_of_end = is_stopped and after > #list and list:find("^[\194-\244]", at)
        if not is_of_end and list:sub(at, after - 1):gsub(".", found.shared):gsub(".", of_entry) ~= "" then
            return line
        end
        at = fault_of(list, after)
    end
end

-- Runs.

-- How many braces are open at the end of a text, and at least anywhere in it.
local function depths_of(text)
    local depth, least = 0, 0
    for brace in text:gmatch("[{}]") do
        depth = depth + (brace == "{" and 1 or -1)
        least = math.min(least, depth)
    end
    return depth .. " " .. least
end

-- The files of a job with coded letters, and their codes. `are_in_braces` is whether letters in braces are coded too: a style may cut a text in braces after any byte, and a code with it.
-- `mark` ends each key.
local function coded(task, are_in_braces, mark)
    local codes = { language = task.language, are_in_braces = are_in_braces, mark = mark, letters = {}, numbers = {}, count = 0 }
    local known, files = {}, {}
    for _, database in ipairs(task.databases) do
        known[database.name] = coded_database(database, codes)
    end
    for number, file in ipairs(task.files) do
        files[number] = { name = file.name, bytes = known[file.name] or file.bytes }
    end
    return codes, files
end

-- Whether no brace of a list is left over from a code that was cut. A style may leave out braces of its own.
local function has_all_braces(task, list)
    local is_cut = list:find("{\\}", 1, true) ~= nil
    for _, file in ipairs(is_cut and task.files or {}) do
        is_cut = is_cut and not (file.bytes and file.bytes:find("{\\}", 1, true))
    end
    local depths = depths_of(list)
    return not is_cut and (depths == "0 0" or depths == depths_of(task.run(task.files, task.longer).list))
end

-- The run over coded letters, turned back.
local function run_over(task, are_in_braces)
    local codes, files = coded(task, are_in_braces, "")
    local is_made, made = pcall(task.run, files, task.longer)
    if not is_made or not made.report.is_finished then
        leave_out("Unfinished")
    end
    made.list, made.log = turned_back(codes, made.list), turned_back(codes, made.log)
    if made.list:find(REST) or made.log:find(REST) or not has_all_braces(task, made.list) then
        leave_out("CutsLetters")
    end
    for _, event in ipairs(made.events) do
        event.text = turned_back(codes, event.text)
    end
    return made
end

-- Whether the style prints what letters sort as.
local function prints_keys(task)
    local codes, files = coded(task, true, MARK)
    local is_made, made = pcall(task.run, files, task.longer)
    return not is_made or turned_back(codes, made.list):find("[\254\255]") ~= nil
end

-- The run with the letters of a language; nil where no entry that counts has such letters.
local function run_with(task, name)
    task.language = language_named(name)
    local count, types
    task.databases, count, types = databases_of(task.files, task.language.has_rules_for_ascii)
    if count == 0 then
        return nil
    end
    local style = texts_of(task.files, ".bst")[1] or ""
    if style:find(DIGIT) then
        leave_out("ControlCharacters")
    elseif may_print_keys(style, types) and prints_keys(task) then
        leave_out("PrintsKeys")
    end
    local is_made, made = pcall(run_over, task, true)
    if not is_made and type(made) == "table" and made.why == "CutsLetters" then
        return run_over(task, false)
    elseif not is_made then
        error(made, 0)
    end
    return made
end

-- The first line of a list that has half a letter; nil where none has.
local function half_of(task, made)
    if fault_of(made.list) then
        task.others = task.others or others_of_job(task.files)
        return line_of_half_letter(made.list, made.report.status == 4, task.others)
    end
end

-- What is to be said of the letters of a list, a line each, as `bibtex-search` has it in its log, added to a list of lines. `is_asked` is whether text was to be read so.
local function add_notes(notes, task, made, is_by_letters, is_asked)
    local line = half_of(task, made)
    -- (a list that has half a letter is no better for that)
    if not is_asked and not line then
        notes[#notes + 1] = "The list is made with -text=utf8: read by bytes, it would have half a letter, which LaTeX refuses."
    end
    if line then
        local remedy = is_by_letters and "the style cuts text by bytes" or "try -text=utf8"
        remedy = task.is_style_whole and remedy or "the style isn't UTF-8"
        notes[#notes + 1] = "Line " .. line .. " of the list has half a letter, which LaTeX refuses: " .. remedy .. "."
    end
    return notes
end

-- By its files as they are: what it gives, and whether text was read by letters. `auto` reads by bytes, as the original does, and once more by letters where that would leave half a letter.
local function run_as_it_is(task)
    local first = task.run(task.files, { utf8 = task.text == "utf8" })
    if task.text ~= "auto" or not half_of(task, first) then
        return first, task.text == "utf8"
    end
    local by_letters = task.run(task.files, { utf8 = true })
    if task.is_style_whole or not half_of(task, by_letters) then
        return by_letters, true
    end
    return first, false
end

-- letters.run(name, files, text, limits, run) -> made, notes
--
-- Runs a job with the letters of the language of this name, or `no`. `text` is how text is read: "bytes", "utf8" or "auto". `limits` has entry_max and global_max; run(files, options) gives list, log,
-- report and events of a run over these files. The notes are what is to be said of the list's letters, a line each.
function letters.run(name, files, text, limits, run)
    if name ~= "no" and not tables.LANGUAGES[name] then
        error("btx: letters is no or one of " .. table.concat(tables.NAMES, ", ") .. ", not " .. tostring(name), 0)
    end
    local function longer(most)
        return math.min(most * tables.LONGER, MOST_LONGER)
    end
    local task = { files = files, text = text, run = run, longer = { utf8 = text ~= "bytes", entry_max = longer(limits.entry_max), global_max = longer(limits.global_max) } }
    task.is_style_whole = not fault_of(table.concat(texts_of(files, ".bst"), "\n"))
    local notes = {}
    if name ~= "no" and not is_ascii(table.concat(texts_of(files, ".bib"))) then
        local is_made, made = pcall(run_with, task, name)
        if is_made and made then
            return made, add_notes(notes, task, made, text ~= "bytes", true)
        elseif not is_made and not (type(made) == "table" and made.why) then
            error(made, 0)
        elseif not is_made then
            notes[1] = "The list is made without -letters: " .. tables.REASONS[made.why] .. "."
        end
    end
    local made, is_by_letters = run_as_it_is(task)
    return made, add_notes(notes, task, made, is_by_letters, text ~= "auto" or not is_by_letters)
end

return letters
