-- The loop of ten statements that `compare bench run` measures (`loop_table` in src/bench.rs), statement for statement, as
-- a plain Lua loop: no check but the dynamic check that is a statement of the routine. Rows are counted from 1, as in Lua,
-- and what is added stays below 2^32, so that nothing wraps.
-- Arguments: rounds of the loop, and how often it is timed. Prints the best time in ns, and what the variables are at last.
local rounds, times = tonumber(arg[1]), tonumber(arg[2])

local function loop(p, n, rounds)
    local i, x, sum, round = 1, 0, 0, 0
    while round < rounds do
        x = p[i]
        sum = sum + x
        if not (i <= n) then error("dynamic check") end
        x = x + 1
        p[i] = x
        x = p[2]
        i = i + 1
        if i > n then i = 1 end
        round = round + 1
    end
    return i, x, sum, round
end

local best = math.huge
local i, x, sum, round
for _ = 1, times do
    local p = {}
    for cell = 1, 100 do p[cell] = 7 end
    local start = os.clock()
    i, x, sum, round = loop(p, 100, rounds)
    best = math.min(best, os.clock() - start)
end
print(string.format("%.0f %d %d %d %d", best * 1e9, i - 1, x, sum, round))
