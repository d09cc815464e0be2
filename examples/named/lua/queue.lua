#!/usr/bin/env lua
--[[ A queue of jobs.
     ]=] doesn't end this comment. ]]
local Queue <const> = {}
Queue.__index = Queue

--[==[ Neither does ]] end
this one. ]==]
--- What a job may cost: a comment up to the end of the line.
--[ and this one, ]] too
--[==
--
local LIMITS = { 3, 3., .5, 3.14e-2, 0xff, 0x.8p1, 0xA.8P-3, 7 // 2, 2 ^ 10, ~5 & 6 | 1 ~ 3, 1 << 4 >> 2 }
local HELP = [[
usage: queue [FILE ..]
"a" and \n are no escapes]]
local NESTED = [=[ a[b[1]] ]=] .. [==[]=]]==] .. [===[
[==[]==]]===]
local TEXT = "it's \"quoted\"\n\x41\065\u{20AC}\
on two lines, \z
      and on" .. '"\'' .. ''

function Queue.new(...)
  local jobs = { n = select("#", ...), ["first"] = 1; ... }
  return setmetatable({ jobs = jobs, done = false }, Queue)
end

function Queue:add(name, cost)
  if not cost or cost <= 0 and cost ~= -1 then
    error(("no cost: %s"):format(name), 2)
  elseif #self.jobs >= LIMITS[1] then
    return nil
  else
    self.jobs[#self.jobs + 1] = { name = name, cost = cost % 7 }
  end
  return self
end

for i, job in ipairs(Queue.new("a", 'b').jobs) do
  repeat
    if i == 2 then goto continue end
    print(i .. ": " .. job, f{ 1 }, g"x")
  until true
  ::continue::
end
while false do break end
