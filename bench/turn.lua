-- Times the turn of the benchmark's first routine in Lua: a store, a load and two adds, 100,000 times; ns a turn, the median of 21 rounds.
-- Given the benchmark's program, each round also times the proved machine, since the processor's speed moves.
-- Lua 5.4 has operators for AND and OR. LuaJIT has functions, whose numbers wrap to 32 signed bits.
local ROUNDS, TURNS = 21, 100000
local memory, program = {}, arg[1]
-- Filled from 0 on, so that Lua keeps them in the table's array part, not in its hash part.
for i = 0, 511 do memory[i] = 0 end

-- The turn reads only locals.
local WITH_OPERATORS = [[
    local cells, turns = ...
    local r1, r2, r3, r4, r5 = 0, 1, turns, 0, 0
    repeat
        cells[r1 & 511 | 256] = r1
        r4 = cells[r1 & 511 | 256]
        r5 = r5 + r4 & 0xFFFFFFFF
        r1 = r1 + r2 & 0xFFFFFFFF
    until r1 >= r3
]]
local WITH_FUNCTIONS = [[
    local cells, turns = ...
    local band, bor, tobit = bit.band, bit.bor, bit.tobit
    local r1, r2, r3, r4, r5 = 0, 1, turns, 0, 0
    repeat
        cells[bor(band(r1, 511), 256)] = r1
        r4 = cells[bor(band(r1, 511), 256)]
        r5 = tobit(r5 + r4)
        r1 = tobit(r1 + r2)
    until r1 >= r3
]]
local turns = jit and loadstring(WITH_FUNCTIONS) or load(WITH_OPERATORS)

local function lua(cells)
    local start = os.clock()
    turns(cells, TURNS)
    return (os.clock() - start) * 1e9 / TURNS
end

local function proved()
    local pipe = assert(io.popen(program .. " turn"))
    local ns = assert(tonumber(pipe:read("*l")), "no answer of " .. program)
    pipe:close()
    return ns
end

local luas, proveds, ratios = {}, {}, {}
for round = 1, ROUNDS do
    luas[round] = lua(memory)
    if program then
        proveds[round] = proved()
        ratios[round] = proveds[round] / luas[round]
    end
end
for _, list in ipairs { luas, proveds, ratios } do table.sort(list) end
local middle = (ROUNDS + 1) / 2
print(string.format("%-8s %.1f ns a turn, the least %.1f", jit and "luajit" or "lua", luas[middle], luas[1])
    .. (program and string.format(" | the proved machine %.1f, the least %.1f | ratio %.2f", proveds[middle], proveds[1], ratios[middle]) or ""))
