-- Times string.gsub: `lua5.4 - FILE PATTERN REPLACEMENT CALLS`. Says the seconds of the calls and the count of replacements, and for no
-- calls also the text.
local file, pattern, replacement, calls = ...
local subject = assert(io.open(file, "rb")):read("a")
calls = tonumber(calls)
local gsub, clock = string.gsub, os.clock
local text, count = gsub(subject, pattern, replacement)
local start = clock()
for _ = 1, calls do
    gsub(subject, pattern, replacement)
end
local seconds = clock() - start
io.write(string.format("%.6f %d\n", seconds, count))
if calls == 0 then
    io.write(text)
end
