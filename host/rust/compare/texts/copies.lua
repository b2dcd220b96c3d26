-- a table of 16 fields and one of 256 elements, copied element by element
local a, c = {}, {}
for i = 0, 15 do a["f" .. i] = i * i end
for n = 0, 255 do c[n] = n end
local b, d = {}, {}
for i = 1, 100000 do
  for k, v in pairs(a) do b[k] = v end
  for n = 0, 255 do d[n] = c[n] end
end
print(b.f15 .. " " .. d[255])
