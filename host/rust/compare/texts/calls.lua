local i1, j1, s, t = 0, 0, 1, 0
local function mix(a, b)
  if a < 0 or a > 65520 then error("range") end
  if b < -2147483648 or b > 2147483647 then error("range") end
  s = (a * 31 + b) % 65521
end
for i = 1, 3333 do
  i1 = i
  for j = 1, 1000 do
    j1 = j
    mix(s, i + j)
  end
end
print(i1 .. " " .. j1 .. " " .. s .. " " .. t)
