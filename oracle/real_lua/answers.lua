-- answers.lua VERSION: what the Lua that runs this does with each of the texts, two bytes each on standard output.
-- The first: + it takes the text, - it refuses it, ? undecided, . not asked (this Lua lacks the function).
-- The second: the class of a difference that is known, or a blank; join.lua has the classes that take two Luas to tell.

local folder = arg[0]:match("^(.*/)") or "./"
local texts = dofile(folder .. "texts.lua")
local subjects = dofile(folder .. "subjects.lua")
local version = tonumber(arg[1])
assert(_VERSION == "Lua 5." .. version, _VERSION)

local function has_any(message, phrases)
  for _, phrase in ipairs(phrases) do
    if message:find(phrase, 1, true) then
      return true
    end
  end
  return false
end

-- Takes a call's result: true, or false where it raised what a wrong text raises. Anything else is a fault of this script.
local function judge(text, phrases, ok, message)
  if ok then
    return true
  end
  if not has_any(message, phrases) then
    error(("text %q: %s"):format(text, message), 0)
  end
  return false
end

local ask = {}

-- The text "1" serves every conversion, as a number or as a string.
local function ones(count)
  local list = {}
  for i = 1, count do
    list[i] = "1"
  end
  return list
end

local unpack = unpack or table.unpack

local FORMAT_FAULTS = { "invalid option", "invalid conversion", "invalid format", "cannot have modifiers" }
function ask.F(text)
  local values = ones(select(2, text:gsub("%%", "")))
  return judge(text, FORMAT_FAULTS, pcall(string.format, text, unpack(values)))
end

local PATTERN_FAULTS = {
  "malformed pattern", "missing '['", "missing [", "unbalanced pattern", "invalid pattern capture", "invalid capture index", "unfinished capture", "too many captures",
}
function ask.P(text)
  local has_matched, has_raised = false, false
  for _, subject in ipairs(subjects(text)) do
    local ok, found = pcall(string.match, subject, text)
    if judge(text, PATTERN_FAULTS, ok, found) then
      has_matched = has_matched or found ~= nil
    else
      has_raised = true
    end
  end
  assert(not (has_matched and has_raised), "a pattern that matches and raises")
  if has_matched or has_raised then
    return has_matched
  end
  return nil
end

local PACK_FAULTS = { "invalid format option", "missing size", "out of limits", "not power of 2", "invalid next option", "variable-length format", "variable-size format", "too large" }

-- A `c0` takes the empty string only, so the value that is too long is made empty and the call made again.
function ask.K(text)
  local values = ones(#text)
  while true do
    local ok, message = pcall(string.pack, text, unpack(values))
    local place = not ok and message:match("#(%d+).*longer than")
    if not place then
      return judge(text, PACK_FAULTS, ok, message)
    end
    values[tonumber(place) - 1] = ""
  end
end

function ask.S(text)
  return judge(text, PACK_FAULTS, pcall(string.packsize, text))
end

-- A pattern of as many captures; with nine of them every digit has one.
function ask.G(text, captures)
  local count = captures or 9
  local pattern, subject = string.rep("(.)", count), string.rep("a", count)
  if count == 0 then
    pattern, subject = "a", "a"
  end
  return judge(text, { "invalid capture index", "invalid use of" }, pcall(string.gsub, subject, pattern, text))
end

function ask.D(text)
  return judge(text, { "invalid conversion specifier" }, pcall(os.date, text, 0))
end

-- Known differences that this Lua can tell by itself: what the check reads otherwise is put in the form that both read alike, and if
-- this Lua takes that, the difference is that one.

-- Sizes that the build decides count 4 in the check.
local function with_sizes(text)
  return (text:gsub("[jJlLT]", "i4"):gsub("s(%D)", "s4%1"):gsub("s(%D)", "s4%1"):gsub("s$", "s4"))
end

-- A `c` takes any number in the check.
local function with_short_counts(text)
  return (text:gsub("c%d%d%d%d%d%d%d%d%d+", "c1"))
end

-- A date may have the options of Windows in the check.
local function without_windows(text)
  return (text:gsub("%%(#?)(.?)", function(hash, letter)
    if hash == "#" and letter:match("[cxdHIjmMpSUwWyY]") then
      return "%%"
    end
  end))
end

local is_pack = { K = true, S = true }

-- Whether a date is a table for this Lua since a zero byte stands behind `*t`, and has a fault behind it that the check reads.
local function is_table_before_fault(kind, text)
  local behind = text:match("^!?%*t%z(.*)")
  return kind == "D" and version > 1 and behind ~= nil and not ask.D(without_windows((behind:gsub("%z", ""))))
end

-- u: this byte is in no UTF-8 text. z: a zero byte ends the text for this Lua, and for the check it is an option that there is not.
local function class_of_taken(kind, text)
  if text:find("\255", 1, true) then
    return "u"
  end
  if text:find("\0", 1, true) and (is_pack[kind] or is_table_before_fault(kind, text)) then
    return "z"
  end
  return " "
end

local function class_of_refused(kind, text)
  local ends_at_zero = is_pack[kind] or version < 3
  if text:find("\255", 1, true) or ends_at_zero and text:find("\0", 1, true) then
    return " "
  end
  if is_pack[kind] then
    if ask[kind](with_sizes(text)) then
      return "n"
    end
    if ask[kind](with_short_counts(text)) then
      return "c"
    end
    if ask[kind](with_short_counts(with_sizes(text))) then
      return "b"
    end
  end
  if kind == "D" and ask.D(without_windows(text)) then
    return "w"
  end
  return " "
end

local out = {}
for i, text in ipairs(texts) do
  local kind = text.kind
  local answer, class = ".", " "
  if not is_pack[kind] or string.pack then
    local is_taken = ask[kind](text.text, text.captures)
    if is_taken == nil then
      answer = "?"
    else
      answer = is_taken and "+" or "-"
      class = (is_taken and class_of_taken or class_of_refused)(kind, text.text)
    end
  end
  out[i] = answer .. class
end
io.write(table.concat(out))
