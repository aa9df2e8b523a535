-- join.lua ANSWERS DIR: makes the stored files of the four Luas' answers (ANSWERS/1 to ANSWERS/4, by answers.lua) and says what was left out.

local folder = arg[0]:match("^(.*/)") or "./"
local texts = dofile(folder .. "texts.lua")

local function read(path)
  local file = assert(io.open(path, "rb"))
  local bytes = file:read("*a")
  file:close()
  return bytes
end

local answers = {}
for version = 1, 4 do
  answers[version] = read(arg[1] .. "/" .. version)
  assert(#answers[version] == 2 * #texts, "answers of version " .. version)
end

local function answer_of(version, index)
  return answers[version]:sub(2 * index - 1, 2 * index - 1)
end

-- What the check makes of a text with a zero byte, by a Lua that reads on behind it: it takes the text, but for what Windows has.
local function is_taken_whole(version, index)
  return answer_of(version, index) == "+" or answers[version]:sub(2 * index, 2 * index) == "w"
end

-- 5.1 ends a pattern and 5.2 a date at a zero byte.
local function ends_at_zero(version, index)
  local kind = texts[index].kind
  return (kind == "P" and version == 1 or kind == "D" and version == 2)
    and (answer_of(version, index) == "+") ~= is_taken_whole(version + 1, index)
end

-- The class of a known difference, or a blank.
local function class_of(version, index)
  if texts[index].text:find("\0", 1, true) and ends_at_zero(version, index) then
    return "z"
  end
  return answers[version]:sub(2 * index, 2 * index)
end

local function word(number)
  return string.char(number % 256, math.floor(number / 256) % 256, 0, 0)
end

local function record(text, asked, taken)
  local known = string.char(text.captures and 1 or 0) .. word(text.captures or 0)
  local length = word(#text.text):sub(1, 2)
  return text.kind .. "\0" .. known .. length .. text.text .. string.char(asked, taken)
end

local FILES = {
  F = "real_formats", P = "real_patterns", K = "real_packs", S = "real_packsizes", G = "real_replacements", D = "real_dates",
}
local CLASSES = {
  { "n", "a size that the build decides, 4 in the check" },
  { "c", "a c with a long number" },
  { "b", "both of these" },
  { "w", "a date option of Windows" },
  { "z", "a text that Lua ends at a zero byte" },
  { "u", "a byte that is not UTF-8" },
}

local stored, known = {}, {}
local asked_count, taken_count, undecided, lacking = 0, 0, 0, 0
local classes, smallest = {}, {}
for letter in pairs(FILES) do
  stored[letter] = {}
end

local function note(class, version, text)
  classes[class] = (classes[class] or 0) + 1
  local least = smallest[class]
  if not least or #text.text < #least.text then
    smallest[class] = { text = text.text, kind = text.kind, version = version }
  end
end

for index, text in ipairs(texts) do
  local asked, taken = 0, 0
  for version = 1, 4 do
    local answer, class = answer_of(version, index), class_of(version, index)
    local bit = 2 ^ (version - 1)
    if answer == "?" then
      undecided = undecided + 1
    elseif answer == "." then
      lacking = lacking + 1
    elseif class ~= " " then
      note(class, version, text)
      known[#known + 1] = record(text, bit, answer == "+" and bit or 0)
    else
      asked = asked + bit
      taken = taken + (answer == "+" and bit or 0)
      asked_count = asked_count + 1
      taken_count = taken_count + (answer == "+" and 1 or 0)
    end
  end
  if asked > 0 then
    table.insert(stored[text.kind], record(text, asked, taken))
  end
end

local function write(name, records)
  local file = assert(io.open(arg[2] .. "/" .. name .. ".bin", "wb"))
  file:write(table.concat(records))
  file:close()
end

for letter, name in pairs(FILES) do
  write(name, stored[letter])
end
write("real_known", known)

print(("%d texts: %d answers stored, %d of them taken"):format(#texts, asked_count, taken_count))
print(("left out: %d that no subject decides (patterns), %d of a Lua without string.pack"):format(undecided, lacking))
for _, class in ipairs(CLASSES) do
  local least = smallest[class[1]]
  local shown = least and ("%s, version %d: %q"):format(least.kind, least.version, least.text) or "none"
  print(("known to differ, in a file of their own: %d, %s; %s"):format(classes[class[1]] or 0, class[2], shown))
end
