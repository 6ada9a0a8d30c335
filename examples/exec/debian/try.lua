-- Files, strings, numbers, closures, coroutines and errors, of Lua's own library.
print(_VERSION, ...)
local out <close> = assert(io.open("out.txt", "w"))
for i = 1, 300 do out:write(("%d %s\n"):format(i, ("x"):rep(i % 50))) end
out:close()
local longest, lines = 0, 0
for line in io.lines("out.txt") do
  lines, longest = lines + 1, math.max(longest, #line)
end
print(lines, longest)
local f = assert(io.open("out.txt", "r+"))
print(f:seek("end"), f:seek("set", 8), f:read("n", "l", "L", 3))
f:seek("set", 0)
f:write("ONE")
f:close()
print(io.open("out.txt"):read("l"), io.open("nothing"))
print(os.rename("out.txt", "renamed.txt"), os.remove("nothing"), os.remove("renamed.txt"))
print(require("module").double(21), package.loaded.module ~= nil)
local words = {}
for word in ("the quick brown fox jumps over the lazy dog"):gmatch("%a+") do
  words[#words + 1] = word
end
table.sort(words, function(a, b) return #a < #b or #a == #b and a < b end)
print(table.concat(words, " "), ("hello"):gsub("l", { l = "L" }))
local co = coroutine.wrap(function(n) for i = 1, n do coroutine.yield(i * i) end end)
print(co(3), co(), co(), 7 // 2, 7 % -3, 2 ^ 10, 1 << 31, 0x7fffffffffffffff + 1, 10 / 4)
print(pcall(function() local t; return t.x end))
print(string.pack("<i4z", 258, "ab"):byte(1, -1))
print(load("return 1 +")) -- a syntax error
local function fib(n) return n < 2 and n or fib(n - 1) + fib(n - 2) end
print(fib(20), select("#", table.unpack({ 1, nil, 3 }, 1, 3)), utf8.len("äöü"))
io.stderr:write("on standard error\n")
io.open("left.txt", "w"):write("left"):close()
os.exit(7, true)
