print(_VERSION, 10 // 3, 7.5 % 2, math.pi, string.format("%5.2f|%q|%x", 2.345, "a\n", 255))
local list = {}
for i = 1, 2000 do list[i] = (i * 7919) % 2003 end
table.sort(list)
print(#list, list[1], list[1000], list[2000], ("hello world"):gsub("o", "0"))
local file = assert(io.open("numbers", "w"))
for i = 1, 100 do file:write(i, "\n") end
file:close()
local sum = 0
for line in io.lines("numbers") do sum = sum + tonumber(line) end
file = io.open("numbers")
print(sum, file:seek("end"), file:seek("set", 10), file:read("l"), io.open("none"))
local squares = coroutine.wrap(function() for i = 1, 3 do coroutine.yield(i * i) end end)
local function deep(n) return n == 0 and 0 or 1 + deep(n - 1) end
print(squares(), squares(), pcall(error, "a fault"), deep(10000), collectgarbage("count") > 10, os.remove("numbers"))
