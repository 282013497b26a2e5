local n = tonumber(arg[1])
local a = {}
for j = 0, 255 do a[j] = 0 end
local i, v = 0, 0
repeat
  local j = i & 255
  v = a[j]
  v = (v + i) & 0xffffffff
  a[j] = v
  i = (i + 1) & 0xffffffff
until not (i < n)
print(v, os.clock())
