-- join_gsub.lua DIR: the lines of the four Luas as one line each: pattern, replacement, subject, and the answers of 5.1 to 5.4. `=` is the answer before.
local files = {}
for version = 1, 4 do
    files[version] = assert(io.open(arg[1] .. "/" .. version))
end
print("# pattern, replacement, subject; what string.gsub of 5.1, 5.2, 5.3 and 5.4 does: count:text, !kind of error (7 also for 10), - left out, = as the one before")
local stored, leftOut = { 0, 0, 0, 0 }, { 0, 0, 0, 0 }
for line in files[1]:lines() do
    local texts, first = string.match(line, "^(%S+ %S+ %S+) (%S+)$")
    local made, before = { texts }, nil
    for version = 1, 4 do
        local found = first
        if version > 1 then
            local other
            other, found = string.match(files[version]:read(), "^(%S+ %S+ %S+) (%S+)$")
            assert(other == texts, "the Luas made other texts")
        end
        made[version + 1] = found == before and "=" or found
        before = found
        local counts = found == "-" and leftOut or stored
        counts[version] = counts[version] + 1
    end
    print(table.concat(made, " "))
end
for version = 1, 4 do
    io.stderr:write(string.format("gsub of 5.%d: %d answers, %d left out (zero bytes, %%g, empty matches)\n", version, stored[version], leftOut[version]))
end
