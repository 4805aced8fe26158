-- The loop of `loops jobs` of loops.c by closures over tables: three jobs an object, each called where its cycle
-- divides the tic.   lua5.4 loops.lua OBJECTS TICS
local function jobs(count, tics)
    local objects, list = {}, {}
    for i = 1, count do
        local o = {a = 0, b = 0, c = 0}
        objects[i] = o
        list[#list + 1] = {cycle = 1, run = function() o.a = o.a + 1 end}
        list[#list + 1] = {cycle = 2, run = function() o.b = o.b + o.a end}
        list[#list + 1] = {cycle = 5, run = function() o.c = o.c + o.b - o.a end}
    end
    for tic = 0, tics - 1 do
        for _, job in ipairs(list) do
            if tic % job.cycle == 0 then
                job.run()
            end
        end
    end
    local sum = 0
    for _, o in ipairs(objects) do
        sum = sum + o.a + o.b + o.c
    end
    return sum
end

print(jobs(tonumber(arg[1] or 0), tonumber(arg[2] or 0)))
