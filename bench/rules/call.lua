local n = tonumber(arg[1])
local function next(x)
  return (x + 1) & 0xffffffff
end
local i = 0
repeat
  i = next(i)
until not (i < n)
print(i, os.clock())
