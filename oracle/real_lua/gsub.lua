-- gsub.lua VERSION: what this Lua's string.gsub does with patterns, replacements and subjects from one seed, and with every class on every byte, a line
-- for each.
-- The version is 1 to 4. The same texts are made under every Lua; what is left out under this one is written as `-`.
local version = tonumber(arg[1])
local COUNT = 24000

-- Park and Miller's generator: exact in the doubles of 5.1 too.
local state = 20240501
local function below(bound)
    state = (state * 16807) % 2147483647
    return state % bound
end

local PATTERNS = {
    "a", "a", "b", "c", ".", "%", "%%", "(", ")", "(", ")", "()", "(a)", "(.)", "[", "]", "[^", "-", "*", "+", "?", "^", "$", "%a", "%d", "%w", "%s",
    "%S", "%x", "%p", "%u", "%L", "%c", "%z", "%g", "%0", "%1", "%2", "%b", "%bab", "%b()", "%f", "%f[%w]", "%f[^a]", "[a-c]", "[%w_]", "[!-%%]", "[]a]",
    "[^%s]", "\0", "\195\169", "a?", "a-", ".*", "(.-)", "%1", "%l", "%A", "%C", "%D", "%G", "%P", "%U", "%W", "%X", "%Z",
}
local SUBJECTS = { "a", "a", "aa", "b", "c", "ab", "1", "_", " ", "(", ")", "%", "]", "-", "A", "\0", "\195\169", "\n", "abab" }
local REPLACEMENTS = { "x", "yz", "%0", "%1", "%1", "%2", "%3", "%9", "%%", "%", "%a", "" }

local function text(parts, most)
    local made = {}
    for i = 1, below(most + 1) do
        made[i] = parts[below(#parts) + 1]
    end
    return table.concat(made)
end

-- One subject in four is of any bytes.
local function anySubject()
    if below(4) > 0 then
        return text(SUBJECTS, 9)
    end
    local made = {}
    for i = 1, below(10) do
        made[i] = string.char(below(256))
    end
    return table.concat(made)
end

-- Lua's messages and document 01's kinds. 7 and 10 have one message but in 5.2, so both are written as 7.
local KINDS = {
    { "ends with '%%'", 1 },
    { "missing ']'", 2 },
    { "missing '%['", 3 },
    { "missing arguments to '%%b'", 4 },
    { "unbalanced pattern", 4 },
    { "invalid pattern capture", 5 },
    { "unfinished capture", 6 },
    { "invalid capture index", 7 },
    { "too many captures", 8 },
    { "invalid use of '%%'", 9 },
}

local function kind(message)
    for _, row in ipairs(KINDS) do
        if string.find(message, row[1]) then
            return row[2]
        end
    end
    error("an error that is not about the texts: " .. message)
end

-- Printable bytes but the backslash stand for themselves; the space is not one of them.
local function shown(bytes)
    local made = string.gsub(bytes, ".", function(char)
        local byte = string.byte(char)
        if byte > 32 and byte < 127 and char ~= "\\" then
            return char
        end
        return string.format("\\%02x", byte)
    end)
    return '"' .. made .. '"'
end

-- 5.1 ends a pattern at a zero byte and has no `%g`; 5.1 and 5.2 let an empty match follow a match. The marks are such that neither every byte in its
-- order nor one byte between the marks looks like an empty match.
local function isLeftOut(pattern, subject)
    if version > 2 then
        return false
    end
    if version == 1 and (string.find(pattern, "%z") or string.find(string.lower(pattern), "%%g")) then
        return true
    end
    local ok, marked = pcall(string.gsub, subject, pattern, "\3\1\2%0\6\4\5")
    return ok and string.find(marked, "\3\1\2\6\4\5", 1, true) ~= nil
end

local function answer(pattern, replacement, subject)
    if isLeftOut(pattern, subject) then
        return "-"
    end
    local ok, made, count = pcall(string.gsub, subject, pattern, replacement)
    if not ok then
        return "!" .. kind(made)
    end
    return string.format("%d:%s", count, shown(made))
end

local function ask(pattern, replacement, subject)
    print(string.format("%s %s %s %s", shown(pattern), shown(replacement), shown(subject), answer(pattern, replacement, subject)))
end

for _ = 1, COUNT do
    ask(text(PATTERNS, 6), text(REPLACEMENTS, 3), anySubject())
end

-- Each byte stands once in the subject, so what is left of it tells which bytes were taken.
local bytes = {}
for byte = 0, 255 do
    bytes[byte + 1] = string.char(byte)
end
local everyByte = table.concat(bytes)

local function askClass(byte)
    local class = "%" .. string.char(byte)
    ask(class, "", everyByte)
    ask("[" .. class .. "]", "", everyByte)
    ask("[^" .. class .. "]", "", everyByte)
end

-- The printable bytes, letters and others, and some that are not.
for byte = 33, 126 do
    askClass(byte)
end
for _, byte in ipairs({ 0, 9, 10, 32, 127, 128, 170, 195, 255 }) do
    askClass(byte)
end
