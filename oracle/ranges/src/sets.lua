-- What this Lua leaves of a subject with each of the 256 bytes once, where what a set matches is taken out: a line with its version, then
-- an answer for each set on standard input. A set has its length before it, in one byte, and what is left in two, the high one first;
-- 255, 255 stands for a set that is refused.

local bytes = {}
for byte = 0, 255 do
    bytes[byte + 1] = string.char(byte)
end
local SUBJECT = table.concat(bytes)

local function answer(set)
    local ok, left = pcall(string.gsub, SUBJECT, set, "")
    if not ok then
        return "\255\255"
    end
    return string.char(math.floor(#left / 256), #left % 256) .. left
end

-- All is read before anything is written, so that neither side waits for the other.
local asked = io.read("*a")
local answers = { _VERSION, "\n" }
local place = 1
while place <= #asked do
    local last = place + asked:byte(place)
    answers[#answers + 1] = answer(asked:sub(place + 1, last))
    place = last + 1
end
io.write(table.concat(answers))
