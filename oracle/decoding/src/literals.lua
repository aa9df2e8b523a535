-- What this Lua makes of the literals on standard input: a line with its version, then an answer for each. A literal and a value have
-- their length before them, in four bytes, little-endian; a value has a 1 before that, and a 0 stands for a literal that is refused.

-- What it says of an escape. Any other error is not about one, and is a fault of the literals or of this script.
local FAULTS = {
    "invalid escape sequence", "hexadecimal digit expected", "decimal escape too large", "UTF-8 value too large", "missing '{'",
    "missing '}'",
}

local function isAboutAnEscape(message)
    for _, fault in ipairs(FAULTS) do
        if string.find(message, fault, 1, true) then
            return true
        end
    end
    return false
end

local function answer(literal)
    local chunk, message = load("return " .. literal, "=literal", "t")
    if chunk then
        return "\1" .. string.pack("<s4", chunk())
    end
    if not isAboutAnEscape(message) then
        error(message, 0)
    end
    return "\0"
end

-- All is read before anything is written, so that neither side waits for the other.
local asked = io.read("a")
io.write(_VERSION, "\n")
local place = 1
while place <= #asked do
    local literal
    literal, place = string.unpack("<s4", asked, place)
    io.write(answer(literal))
end
