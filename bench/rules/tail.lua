local n = tonumber(arg[1])
local function spin(i, n)
  if i >= n then
    return i
  end
  local j = (i + 1) & 0xffffffff
  return spin(j, n)
end
print(spin(0, n), os.clock())
