-- Subjects that lead a match through a pattern. A pattern's fault is raised only where the match reaches it, and a pattern is known to have none only
-- where a match succeeds: items stand in one row, so a match that ends has read all of them. A subject that is a bad guess decides nothing and does no harm.

local CANDIDATES = { "a", "b", "z", "A", "0", "1", "9", " ", "\n", "(", ")", "x", "y", "_", "-", "]", "[", "^", "%", ".", "*", "$", "\195", "\169", "\240", "\1" }

-- The place behind a set that starts at `from`, or nil.
local function set_end(pattern, from)
  local at = from + 1
  if pattern:sub(at, at) == "^" then
    at = at + 1
  end
  repeat
    if at > #pattern then
      return nil
    end
    at = at + (pattern:sub(at, at) == "%" and 2 or 1)
  until pattern:sub(at, at) == "]"
  return at + 1
end

-- A byte that a single item takes, or nil.
local function taken(item)
  if #item == 1 and item ~= "." then
    return item
  end
  if item:find("^%%%W") then
    return item:sub(2)
  end
  for _, byte in ipairs(CANDIDATES) do
    local ok, found = pcall(string.match, byte, "^" .. item)
    if ok and found then
      return byte
    end
  end
  return nil
end

-- The bytes that the items ask for, up to the first that can't be read.
local function through(pattern)
  local out, at, open, captures = "", 1, {}, {}
  if pattern:sub(1, 1) == "^" then
    at = 2
  end
  while at <= #pattern do
    local byte, next_byte = pattern:sub(at, at), pattern:sub(at + 1, at + 1)
    if byte == "(" then
      captures[#captures + 1] = { from = #out + 1, to = next_byte == ")" and #out or nil }
      if next_byte == ")" then
        at = at + 2
      else
        open[#open + 1] = captures[#captures]
        at = at + 1
      end
    elseif byte == ")" then
      local capture = table.remove(open)
      if not capture then
        return out
      end
      capture.to = #out
      at = at + 1
    elseif byte == "%" and next_byte == "b" then
      out = out .. pattern:sub(at + 2, at + 3)
      at = at + 4
    elseif byte == "%" and next_byte == "f" then
      at = pattern:sub(at + 2, at + 2) == "[" and set_end(pattern, at + 2)
      if not at then
        return out
      end
    elseif byte == "%" and next_byte:match("%d") then
      local capture = captures[tonumber(next_byte)]
      if not capture or not capture.to then
        return out
      end
      out = out .. out:sub(capture.from, capture.to)
      at = at + 2
    elseif byte == "$" and at == #pattern then
      return out
    else
      local behind = at + (byte == "%" and 2 or 1)
      if byte == "[" then
        behind = set_end(pattern, at)
      end
      if not behind or behind > #pattern + 1 then
        return out
      end
      local single = taken(pattern:sub(at, behind - 1))
      local suffix = pattern:sub(behind, behind)
      if suffix == "*" or suffix == "+" or suffix == "-" or suffix == "?" then
        behind = behind + 1
      end
      out = out .. (single or "")
      at = behind
    end
  end
  return out
end

-- All subjects that are tried for a pattern.
return function(pattern)
  local out = through(pattern)
  local list = { out, "", "a", "ab1 " }
  for _, around in ipairs { "a", "1", " ", "(" } do
    list[#list + 1] = around .. out
    list[#list + 1] = out .. around
  end
  return list
end
