-- The texts that real Lua is asked about: the same under every Lua, from one seed.
-- Each is { kind, captures, text }; captures is nil where the count is unknown.

-- Park and Miller's generator: its products are exact in a double, so 5.1 counts as 5.4 does.
local state = 20261115
local function below(bound)
  state = state * 16807 % 2147483647
  return state % bound
end

local function pick(list)
  return list[below(#list) + 1]
end

local function one_in(times)
  return below(times) == 0
end

local function words(line)
  local list = {}
  for word in string.gmatch(line, "%S+") do
    list[#list + 1] = word
  end
  return list
end

local E_ACUTE, SMILE, NUL, FF = "\195\169", "\240\159\152\128", "\0", "\255"

local function with(list, ...)
  for i = 1, select("#", ...) do
    list[#list + 1] = (select(i, ...))
  end
  return list
end

-- Texts picked by hand: document 01's and 03's inputs, and the smallest input of each known difference.
local PICKED = {
  F = with(words("a% %y %------d %-----d %123d %12d %.123d %.12d %#d %d%s %* %5* % %% %%% %a %A %p %q %5q %-5.3s %.s %. %F %l %ld %05d "
    .. "%+c %0s %.3c %.3p %#x %00d %5-d %5.2.1f %#q %00000000000000000000d %000000000000000000000d %..d"),
    "", "% s", "%\0", "%d\0%d", "%d\0%y", "%" .. E_ACUTE, FF, "%d" .. FF, "%-+ #0d", "%-+ #0-d"),
  P = with(words("[]a [^] a%f (a (a%1) %0 %1 (a)%1 (a)%2 ()%1 []] [^]] []a] [] [ [^ [a [% [%] [%]] % a% %b %ba %b() %f %f[ %f[]] %f[^%w] %fa ) a) "
    .. "() (()) (() * ** +a - ? ^ ^^ $ $$ a$b [a-] [%a-z] [!-%%] [[] [[]] %( %) %[ %] %b)( (a(b)%2) (a(b)%1) ((a)%2)%1 %g [%g]"),
    "", string.rep("(", 33), string.rep("()", 32), string.rep("()", 33), "a\0", "\0", "\0[", "a\0)", "[a\0]", "%\0", "[\0", "%b\0a", FF, "%" .. E_ACUTE, "[" .. E_ACUTE .. "]"),
  K = with(words("b1 c c0 c1 i17 i16 i1 i0 i I17 s s1 s17 !8i3 !8Xi3 i3 !i3 !4i3 !2i3 !1i3 !3i3 !5j !6j !3j !5l !5s !5T !5Xj !3h !16i16 !16i9 ! !17 !0 bz z zz X Xz Xi "
    .. "Xi17 Xs Xs3 Xx XX X! Xc1 Xc Xb Xd !8Xd !8Xi5 x <>= y bBhHiIlLjJTfdn i99999999999 !5d !5n i016"),
    "", " ", "X ", E_ACUTE, "b b", "\0", "b\0", "b\0y", "!5j\0", FF, "b" .. FF, "i-1"),
  S = words("c0 c2147483639 c2147483640 c2147483648 c99999999999999999999 c2147483639b bc2147483639 c2147483639c9 !5jc2147483648"),
  G = with(words("a% %x %2 %1 %0 %9 %% %%% % a%1b%2 %1%x %x%2 %%2 %10"), "", "%\0", "a\0b", "%" .. E_ACUTE, FF, "%1" .. FF),
  D = with(words("%Q % a% *t !*t !!*t %% %E %Ec %Ed %O %Od %Oc %# %#c %#p %#% %E% %5d %aA %+ %k %s %P !%c ! %c% %EcQ *t%Q %C %D %e %F %g %G %h %n %r %R %t %T %u %V %Z %z"),
    "", "%\0", "a\0%Q", "*t\0", "*t\0%Q", "!*t\0%Q", "%#c\0%Q", "*t ", "%" .. E_ACUTE, FF, "%c" .. FF),
}
for _, text in ipairs(PICKED.K) do
  PICKED.S[#PICKED.S + 1] = text
end

-- What random texts are made of; a symbol that stands twice is taken twice as often.
local SYMBOLS = {
  F = with(words("% % % % % %% - + # 0 0 1 9 12 . . c d d i o u x X a A e E f F g G p q s s * l n y"), " ", E_ACUTE, SMILE, NUL, "\n"),
  P = with(words("% % % ( ( ) ) () [ [ [^ ] ] ^ $ * + - ? . a b f z 0 1 2 9 %1 %2 %b() %f[ %] a-z %w"), E_ACUTE, SMILE, "\n"),
  K = with(words("b B h H i I l L j J T f d n s z c c x X X ! ! < > = 0 1 2 3 4 5 8 16 17 y -"), " ", E_ACUTE, NUL),
  G = with(words("% % % %% 0 1 2 3 8 9 %0 %1 %2 %9 a x $ \\"), E_ACUTE, SMILE, NUL),
  D = with(words("% % % % % a A B c C d D e E E F g G h H I j k m M n O O p r R S t T u U V w W x X y Y z Z # ! *t %% q"), E_ACUTE, SMILE, NUL),
}
SYMBOLS.S = SYMBOLS.K

local function hostile(kind)
  local parts = {}
  for i = 1, below(10) do
    parts[i] = pick(SYMBOLS[kind])
    if one_in(24) then
      parts[i] = string.rep(parts[i], below(34) + 1)
    end
  end
  if one_in(60) then
    parts[#parts + 1] = FF
  end
  return table.concat(parts)
end

-- Texts by a grammar: most of their pieces are well formed.
local grammar = {}

local CONVERSIONS = words("c d i o u x X a A e E f g G p q s s d")
local FLAGS = with(words("- + # 0"), " ")
function grammar.F()
  local parts = {}
  for i = 1, below(3) + 1 do
    local flags = ""
    for _ = 1, one_in(8) and below(8) or below(3) do
      flags = flags .. pick(FLAGS)
    end
    local width = pick { "", "", "5", "12", "1", "100", "99" }
    local precision = pick { "", "", ".", ".0", ".3", ".12", ".123" }
    parts[i] = "%" .. flags .. width .. precision .. pick(CONVERSIONS)
  end
  return table.concat(parts, pick { "", " ", "%%", "a" })
end

local ITEMS = with(words("a b . %a %d %w %s %p %% %. [abc] [^abc] [a-z] [%w_] []] [^]] [a-] [%]] %b() %bxy %f[%w] %f[^a] () %1 %2 [%a%d]"), E_ACUTE)
function grammar.P()
  local parts, open = { one_in(8) and "^" or "" }, 0
  for _ = 1, below(6) + 1 do
    if one_in(4) then
      parts[#parts + 1] = "("
      open = open + 1
    end
    parts[#parts + 1] = pick(ITEMS) .. pick { "", "", "", "*", "+", "-", "?" }
    if open > 0 and one_in(2) then
      parts[#parts + 1] = ")"
      open = open - 1
    end
  end
  parts[#parts + 1] = one_in(6) and "" or string.rep(")", open)
  parts[#parts + 1] = one_in(8) and "$" or ""
  parts[#parts + 1] = one_in(30) and pick { ")", "(", "[", "%", "%f", "%b", "%9" } or ""
  return table.concat(parts)
end

local OPTIONS = words("b B h H i I l L j J T f d n z x < > = i1 i2 i3 i4 i8 i16 I3 I7 s s1 s2 s4 c1 c5 Xb Xh Xi Xj Xd Xi3 Xi8 !1 !2 !4 !8 !16 ! !3 !5 !6")
function grammar.K()
  local parts = {}
  for i = 1, below(5) + 1 do
    parts[i] = pick(OPTIONS)
  end
  return table.concat(parts, pick { "", "", " " })
end
grammar.S = grammar.K

function grammar.G()
  return hostile("G")
end

local DATES = words("a A b B c C d D e F g G h H I j m M n p r R S t T u U V w W x X y Y z Z % Ec EC Ex EX Ey EY Od Oe OH OI Om OM OS Ou OU OV Ow OW Oy")
function grammar.D()
  local parts = { pick { "", "", "!" } }
  for _ = 1, below(4) + 1 do
    local conversion = one_in(40) and pick { "#c", "#x", "#d", "#p", "#Y" } or pick(DATES)
    parts[#parts + 1] = "%" .. conversion .. pick { "", " ", "-" }
  end
  return table.concat(parts)
end

local COUNTS = { F = 4500, P = 8000, K = 3500, S = 3500, G = 3500, D = 3500 }
local CAPTURES = { false, 0, 1, 2, 8, 9, 32 }

local texts, seen = {}, {}
local function add(kind, captures, text)
  local key = kind .. tostring(captures) .. ":" .. text
  if not seen[key] then
    seen[key] = true
    texts[#texts + 1] = { kind = kind, captures = captures or nil, text = text }
  end
end

for _, kind in ipairs { "F", "P", "K", "S", "G", "D" } do
  local captures = kind == "G" and CAPTURES or { false }
  for _, text in ipairs(PICKED[kind]) do
    for _, count in ipairs(captures) do
      add(kind, count, text)
    end
  end
  for i = 1, COUNTS[kind] do
    local text
    if i % 2 == 0 then
      text = hostile(kind)
    else
      text = grammar[kind]()
    end
    if kind == "K" then
      -- string.pack would write as many bytes
      text = text:gsub("c%d%d%d%d%d+", "c9999")
    end
    add(kind, captures[below(#captures) + 1], text)
  end
end

return texts
