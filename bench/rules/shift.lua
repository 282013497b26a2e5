local n = tonumber(arg[1])
local i, x = 0, 2463534242
repeat
  local a = (x << 13) & 0xffffffff
  x = x ~ a
  local b = x >> 17
  x = x ~ b
  local c = (x << 5) & 0xffffffff
  x = x ~ c
  i = (i + 1) & 0xffffffff
until not (i < n)
print(x, os.clock())
