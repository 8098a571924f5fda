-- Whether a style may print what `purify$` made of letters, seen by its text alone: it is followed with what each literal and each variable may hold. What can't be followed may print it.
-- It follows styles as the front end does (front/src/style_keys.rs), so that both leave out the letters of the same lists, for the same reasons.

local tables = require("btx_languages")

-- What a text may hold: neither letters with codes nor what is left of them, whole codes of letters, what is left of a code without its control characters, or both.
local PLAIN, LETTERS, KEYS = 0, 1, 2
-- What an error is that ends the following of a style.
local NOT_FOLLOWED = {}

local function refuse()
    error(NOT_FOLLOWED, 0)
end

-- What may be held where either of two texts may be.
local function either(one, other)
    return math.max(one % 2, other % 2) + (math.max(one, other) >= KEYS and KEYS or 0)
end

-- What a name means, by its kind and number: a word, so that two that mean the same are equal. The kinds are those of variables, "field", "function", and the effects of the built-in functions.
local MEANINGS = {}

local function meaning_of(kind, number)
    local word = kind .. " " .. number
    MEANINGS[word] = MEANINGS[word] or { kind = kind, number = number }
    return word
end

-- A literal is a number, which is what a text may hold; or a word: a sign and what the name means, or the body's number.
local function held_by(literal)
    return type(literal) == "number" and literal or PLAIN
end

-- Reading.

-- The tokens of a style from a place on: the kind of the next one, and its word; nil at the end. What is none can't be followed.
local function next_token(reading)
    local style = reading.style
    if reading.is_after_literal and style:find("^[^ \t\r\n}%%]", reading.at) then
        refuse()
    end
    repeat
        local at = reading.at
        reading.at = style:match("^[ \t\r\n]*()", at)
        reading.at = style:match("^%%[^\n]*()", reading.at) or reading.at
    until reading.at == at
    local first = style:sub(reading.at, reading.at)
    if first == "" then
        return nil
    end
    local kind, word = "name", style:match("^[^ \t\r\n}%%]*", reading.at)
    if first == "{" or first == "}" then
        kind, word = first, first
    elseif first == '"' then
        kind, word = "text", style:match('^"[^"\n]*"', reading.at)
    elseif first == "#" then
        kind, word = "integer", style:match("^#%-?[0-9]+", reading.at)
        local digits = word and word:match("0*([0-9]*)$")
        local number = digits and #digits <= 10 and tonumber(word:sub(2)) or 2 ^ 32
        word = number >= -2 ^ 31 and number < 2 ^ 31 and word or nil
    elseif first == "'" then
        kind = "quoted"
    end
    reading.at = reading.at + #(word or refuse())
    reading.is_after_literal = kind == "text" or kind == "integer"
    return kind, word
end

local function expect(reading, wanted)
    local kind, word = next_token(reading)
    return kind == wanted and word or refuse()
end

-- The names between braces.
local function names_of(reading)
    expect(reading, "{")
    local names = {}
    while true do
        local kind, word = next_token(reading)
        if kind == "}" then
            return names
        elseif kind ~= "name" then
            refuse()
        end
        names[#names + 1] = word:lower()
    end
end

local function name_of(reading)
    local names = names_of(reading)
    return names[#names] or refuse()
end

local function define(style, name, meaning)
    style.count = style.count + (style.meanings[name] and 0 or 1)
    style.meanings[name] = meaning
    if style.count > tables.OF_STYLES.MOST_NAMES then
        refuse()
    end
end

-- Defines variables of a kind, and numbers them.
local function define_all(style, kind, names)
    for _, name in ipairs(names) do
        define(style, name, meaning_of(kind, kind == "integer" and 0 or style[kind]))
        style[kind] = style[kind] + 1
    end
    if style.text > tables.OF_STYLES.MOST_TEXTS then
        refuse()
    end
end

local function meaning_in(style, name)
    return style.meanings[name:lower()] or refuse()
end

-- Reads a body after its `{`; its number. A step is a literal, or a table of what is executed.
local function read_body(style, reading)
    local open = { {} }
    while true do
        local kind, word = next_token(reading)
        local step = PLAIN
        if kind == nil then
            refuse()
        elseif kind == "{" then
            open[#open + 1] = {}
        elseif kind == "}" then
            style.bodies[#style.bodies + 1] = table.remove(open)
            if #open == 0 then
                return #style.bodies
            end
            step = "{" .. #style.bodies
        elseif kind == "name" then
            step = { meaning = meaning_in(style, word) }
        elseif kind == "quoted" then
            step = "'" .. meaning_in(style, word:sub(2))
        end
        if kind ~= "{" then
            local body = open[#open]
            body[#body + 1] = step
        end
    end
end

local COMMANDS = {
    entry = function(style, reading)
        for _, name in ipairs(names_of(reading)) do
            define(style, name, meaning_of("field", tables.FIXED[name] and PLAIN or LETTERS))
        end
        define_all(style, "integer", names_of(reading))
        define_all(style, "entry", names_of(reading))
    end,
    integers = function(style, reading)
        define_all(style, "integer", names_of(reading))
    end,
    strings = function(style, reading)
        define_all(style, "text", names_of(reading))
    end,
    macro = function(_, reading)
        name_of(reading)
        expect(reading, "{")
        expect(reading, "text")
        expect(reading, "}")
    end,
    ["function"] = function(style, reading)
        local name = name_of(reading)
        expect(reading, "{")
        local body = read_body(style, reading)
        style.functions[#style.functions + 1] = body
        define(style, name, meaning_of("function", #style.functions))
    end,
    execute = function(style, reading)
        style.executed[#style.executed + 1] = meaning_in(style, name_of(reading))
    end,
    read = function() end,
    sort = function() end,
}
COMMANDS.iterate, COMMANDS.reverse = COMMANDS.execute, COMMANDS.execute

local function read_style(text)
    local style = { meanings = {}, count = 0, integer = 0, entry = 0, text = 0, bodies = {}, functions = {}, executed = {} }
    for _, row in ipairs(tables.BUILTINS) do
        define(style, row[1], meaning_of(row[2], row[3]))
    end
    define_all(style, "integer", { "entry.max$", "global.max$" })
    define_all(style, "entry", { "sort.key$" })
    define(style, "crossref", meaning_of("field", PLAIN))
    local reading = { style = text, at = 1, is_after_literal = false }
    local kind, word = next_token(reading)
    while kind do
        local command = kind == "name" and COMMANDS[word:lower()] or refuse()
        command(style, reading)
        kind, word = next_token(reading)
    end
    return style
end

-- Following.

-- Where a style stands: what is on its stack; what any literal below may hold, of which it isn't known how many there are; and what its variables hold. Those of entries hold what they ever may,
-- since a command goes through the entries.
local State = {}
State.__index = State

local function new_state(stack, below, texts)
    return setmetatable({ stack = stack, below = below, texts = texts }, State)
end

local function copy_of(list)
    local copy = {}
    for number = 1, #list do
        copy[number] = list[number]
    end
    return copy
end

function State:copy()
    return new_state(copy_of(self.stack), self.below, copy_of(self.texts))
end

-- What two states share where they are the same.
function State:key()
    return self.below .. "|" .. table.concat(self.texts, ",") .. "|" .. table.concat(self.stack, "\n")
end

function State:take_from(other)
    self.stack, self.below, self.texts = copy_of(other.stack), other.below, copy_of(other.texts)
end

function State:push(literal)
    self.stack[#self.stack + 1] = literal
end

function State:pop_literal()
    return table.remove(self.stack) or self.below
end

function State:pop(count)
    local held
    for _ = 1, count or 1 do
        held = held_by(self:pop_literal())
    end
    return held
end

-- What is so after either of two ways.
function State:join(other)
    local common = math.min(#self.stack, #other.stack)
    local cut, other_cut = #self.stack - common, #other.stack - common
    local stack, texts, below = {}, {}, either(self.below, other.below)
    for number = 1, common do
        local one, two = self.stack[cut + number], other.stack[other_cut + number]
        if type(one) == "number" and type(two) == "number" then
            stack[number] = either(one, two)
        else
            stack[number] = one == two and one or refuse()
        end
    end
    for number = 1, cut + other_cut do
        below = either(below, held_by(number <= cut and self.stack[number] or other.stack[number - cut]))
    end
    for number = 1, #self.texts do
        texts[number] = either(self.texts[number], other.texts[number])
    end
    return new_state(stack, below, texts)
end

-- Whether a literal may hold keys that another command may take.
function State:leaves_keys()
    local all = self.below
    for _, literal in ipairs(self.stack) do
        all = either(all, held_by(literal))
    end
    return all >= KEYS
end

local Following = {}
Following.__index = Following

function Following:body(number, state)
    self.depth = self.depth + 1
    if self.depth > tables.OF_STYLES.DEEPEST then
        refuse()
    end
    for _, step in ipairs(self.style.bodies[number]) do
        self.steps = self.steps + 1
        if self.steps > tables.OF_STYLES.MOST_STEPS then
            refuse()
        elseif type(step) == "table" then
            self:call(step.meaning, state)
        else
            state:push(step)
        end
    end
    self.depth = self.depth - 1
end

function Following:call_function(number, state)
    local before = number .. (self.loops > 0 and "+" or "-") .. state:key()
    local known = self.known[before]
    if known then
        state:take_from(known)
        return
    end
    self:body(self.style.functions[number], state)
    self.known[before] = state:copy()
end

-- Follows each of these ways into one state.
function Following:any_of(ways, state)
    local joined
    for _, way in ipairs(ways) do
        local after = state:copy()
        self:execute(way, after)
        joined = joined and joined:join(after) or after
    end
    if joined then
        state:take_from(joined)
    end
end

-- Follows a loop until its state holds no more than before.
function Following:repeat_loop(test, body, state)
    self.loops = self.loops + 1
    for _ = 1, tables.OF_STYLES.MOST_ROUNDS do
        local after = state:copy()
        self:execute(test, after)
        after:pop()
        local ended = after:copy()
        self:execute(body, after)
        local both = state:join(after)
        if both:key() == state:key() then
            self.loops = self.loops - 1
            state:take_from(ended)
            return
        end
        state:take_from(both)
    end
    refuse()
end

-- Adds what a variable of an entry may hold.
function Following:keep_of_entry(number, held)
    local more = either(self.of_entries[number], held)
    self.is_early = self.is_early or self.were_read[number] and more ~= self.of_entries[number]
    self.of_entries[number] = more
end

-- What each built-in function does with what texts hold; `popped` is how many literals it pops for that.
local EFFECTS = {
    Take = function(_, state, popped) state:pop(popped) end,
    Answer = function(_, state, popped)
        state:pop(popped)
        state:push(PLAIN)
    end,
    -- (it pops those above a text, which holds what it held)
    Keep = function(_, state, popped)
        state:pop(popped)
        state:push(state:pop())
    end,
    Concatenate = function(_, state) state:push(either(state:pop(), state:pop())) end,
    Assign = function(following, state)
        local variable, held = state:pop_literal(), state:pop()
        local meaning = type(variable) == "string" and MEANINGS[variable:match("^'(.*)")] or refuse()
        if meaning.kind == "text" then
            state.texts[meaning.number + 1] = held
        elseif meaning.kind == "entry" then
            following:keep_of_entry(meaning.number, held)
        elseif meaning.kind ~= "integer" then
            refuse()
        end
    end,
    CallType = function(following, state) following:any_of(following.types, state) end,
    -- (it may have strings in it)
    Preamble = function(_, state) state:push(LETTERS) end,
    Duplicate = function(_, state)
        local literal = state:pop_literal()
        state:push(literal)
        state:push(literal)
    end,
    If = function(following, state)
        local no, yes = state:pop_literal(), state:pop_literal()
        state:pop()
        following:any_of({ yes, no }, state)
    end,
    While = function(following, state)
        local body, test = state:pop_literal(), state:pop_literal()
        following:repeat_loop(test, body, state)
    end,
    Clear = function(_, state) state.stack = {} end,
    Purify = function(_, state) state:push(state:pop() == PLAIN and PLAIN or KEYS) end,
    -- (a loop may leave out each byte of a code but its key; what one cut leaves of it is seen in the list)
    Substring = function(following, state)
        state:pop(2)
        local held = state:pop()
        state:push(either(held, held % 2 == LETTERS and following.loops > 0 and KEYS or PLAIN))
    end,
    Swap = function(_, state)
        local top, below = state:pop_literal(), state:pop_literal()
        state:push(top)
        state:push(below)
    end,
    Write = function(following, state) following.prints_keys = state:pop() >= KEYS or following.prints_keys end,
}

-- Follows a name that is executed.
function Following:call(word, state)
    local meaning = MEANINGS[word]
    local kind, number = meaning.kind, meaning.number
    if kind == "field" then
        state:push(number)
    elseif kind == "integer" then
        state:push(PLAIN)
    elseif kind == "text" then
        state:push(state.texts[number + 1])
    elseif kind == "entry" then
        self.were_read[number] = true
        state:push(self.of_entries[number])
    elseif kind == "function" then
        self:call_function(number, state)
    else
        (EFFECTS[kind] or refuse)(self, state, number)
    end
end

-- Follows a literal that is executed.
function Following:execute(literal, state)
    local sign, word = (type(literal) == "string" and literal or refuse()):match("^(.)(.*)")
    if sign == "{" then
        self:body(tonumber(word), state)
    else
        self:call(word, state)
    end
end

-- Follows all commands, until no variable holds more than before.
function Following:follow_all()
    local texts = {}
    for number = 1, self.style.text do
        texts[number] = LETTERS
    end
    -- (letters are taken for what any variable may hold, so that one round is enough for most styles)
    local begun = new_state({}, LETTERS, texts)
    for _ = 1, tables.OF_STYLES.MOST_ROUNDS do
        local before = begun:key()
        self.known, self.is_early, self.were_read = {}, false, {}
        for _, meaning in ipairs(self.style.executed) do
            local state = begun:copy()
            self:call(meaning, state)
            if state:leaves_keys() then
                refuse()
            end
            state.stack = {}
            begun = begun:join(state)
        end
        if before == begun:key() and not self.is_early then
            return
        end
    end
    refuse()
end

-- What the function of each type is: its own, or that of `default.type`; each once.
local function functions_of(style, types)
    local standard, found, are_found = style.meanings["default.type"], {}, {}
    local function add(meaning)
        if meaning and not are_found[meaning] then
            found[#found + 1], are_found[meaning] = "'" .. meaning, true
        end
    end
    add(standard)
    for name in pairs(types) do
        local meaning = style.meanings[name]
        add(meaning and MEANINGS[meaning].kind == "function" and meaning or standard)
    end
    return found
end

-- may_print_keys(text, types): whether a style may print what `purify$` made of letters, in a job whose entries have these types, which are the keys of a table.
return function(text, types)
    local is_followed, prints_keys = pcall(function()
        local style = read_style(text)
        local following = setmetatable({ style = style, types = functions_of(style, types), prints_keys = false, steps = 0, loops = 0, depth = 0, of_entries = {} }, Following)
        for number = 0, style.entry - 1 do
            following.of_entries[number] = LETTERS
        end
        following:follow_all()
        return following.prints_keys
    end)
    if not is_followed and prints_keys ~= NOT_FOLLOWED then
        error(prints_keys, 0)
    end
    return not is_followed or prints_keys
end
