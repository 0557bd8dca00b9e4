-- What an interpreter does: numbers, strings, tables, coroutines, errors, closures and garbage.
print(_VERSION, 7 // 2, -7 % 3, 2 ^ 0.5, 1e300 * 1e10, math.maxinteger, 0x7fp-2)
print(string.format("%5.2f|%-8s|%q|%x|%g", 3.14159, "left", 'a "quote"\n', 255, 1e-7))
print(("the quick brown fox"):gsub("(%w+)", string.upper), ("a,b,,c"):find(",,", 1, true))
print(string.pack("<i4d", 7, 1.5):byte(1, -1))
print(utf8.char(228, 8364), utf8.len("äöü"), select("#", table.unpack({1, 2, nil, 4}, 1, 4)))

local words = {}
for word in ("one two three four five six seven"):gmatch("%a+") do words[#words + 1] = word end
table.sort(words, function(a, b) return #a < #b or (#a == #b and a < b) end)
print(table.concat(words, " "))

local Point = {}
Point.__index = Point
Point.__add = function(a, b) return setmetatable({x = a.x + b.x}, Point) end
Point.__tostring = function(p) return "point " .. p.x end
print(tostring(setmetatable({x = 1}, Point) + setmetatable({x = 2}, Point)))

local function primes(limit)
    return coroutine.wrap(function()
        local sieve = {}
        for i = 2, limit do
            if not sieve[i] then
                coroutine.yield(i)
                for j = i * i, limit, i do sieve[j] = true end
            end
        end
    end)
end
local sum = 0
for prime in primes(2000) do sum = sum + prime end
print(sum)

print(pcall(error, {code = 7}), select(2, pcall(error, "no table", 0)))
print(select(2, xpcall(function() local t = nil; return t.x end, function(m) return m:match("index.*") end)))
print(pcall(string.rep, "x", -1), pcall(setmetatable, 1, 2))
local depth = 0
local function deep(n) depth = n; return 1 + deep(n + 1) end
print((pcall(deep, 1)), depth > 1000)

local counters = {}
for i = 1, 3 do counters[i] = function() i = i + 1; return i end end
print(counters[1](), counters[1](), counters[2]())
local weak = setmetatable({}, {__mode = "v"})
for i = 1, 1000 do weak[i] = {i} end
collectgarbage()
print(next(weak), collectgarbage("count") < 10000)
print(load("return function(...) return select('#', ...) end")()(1, nil, nil))
print(os.time{year = 2020, month = 1, day = 1, hour = 12} % 60, os.getenv("NOT_THERE"), #arg)
print(math.floor(-3.5), math.type(3), math.fmod(7, -3), math.abs(math.mininteger) == math.mininteger)
