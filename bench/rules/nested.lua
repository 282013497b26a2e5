local n = tonumber(arg[1])
local i, sum = 0, 0
repeat
  do
    local r = math.fmod(i, 3)
    if r == 0 then
      sum = (sum + 1) & 0xffffffff
    elseif r == 1 then
      do
        local s = (i * 2) & 0xffffffff
        sum = sum ~ s
      end
    else
      sum = (sum - 1) & 0xffffffff
    end
  end
  i = (i + 1) & 0xffffffff
until not (i < n)
print(sum, os.clock())
