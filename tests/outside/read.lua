-- read.lua IMAGE ADDRESSES ..: opens each image with Debian's lua-mmdb and compares its answers with those of
-- a file of lines "address zone", the address as 32 hex digits and "-" for no data. Exits with status 1 at
-- the first difference.
local mmdb = require "mmdb"

local function fail(...)
	io.stderr:write(string.format(...), "\n")
	os.exit(1)
end

-- 32 hex digits as 128 booleans, highest bit first
local function bits_of(hex)
	local bits = {}
	for digit in hex:gmatch("%x") do
		local value = tonumber(digit, 16)
		for _, weight in ipairs { 8, 4, 2, 1 } do
			bits[#bits + 1] = value // weight % 2 == 1
		end
	end
	return bits
end

local function compare(image, addresses)
	local opened, db = pcall(mmdb.open, image)
	if not opened then fail("%s: the reader does not open it: %s", image, db) end
	local metadata = db.data
	if metadata.database_type ~= "Ground-Cells" or metadata.ip_version ~= 6 or metadata.record_size ~= 24 then
		fail("%s: the reader finds other metadata", image)
	end
	local lines = 0
	for line in io.lines(addresses) do
		lines = lines + 1
		local hex, expected = line:match("^(%x+) (%S+)$")
		if not hex or #hex ~= 32 then fail("%s:%d: not an address and a zone: %s", addresses, lines, line) end
		local searched, node, zone = pcall(db.search, db, bits_of(hex))
		if not searched then fail("%s: %s: the reader stops: %s", image, hex, node) end
		if node and not zone then fail("%s: %s: the reader ends at a node", image, hex) end
		local found = zone and string.format("%d", zone) or "-"
		if found ~= expected then fail("%s: %s: the reader finds %s, the list gives %s", image, hex, found, expected) end
	end
	if lines == 0 then fail("%s: no addresses", addresses) end
	return lines
end

if #arg == 0 or #arg % 2 ~= 0 then fail("usage: read.lua IMAGE ADDRESSES ..") end
local images, answers = 0, 0
for i = 1, #arg, 2 do
	answers = answers + compare(arg[i], arg[i + 1])
	images = images + 1
end
print(string.format("outside reader: %d images, %d answers, all as the lists give them", images, answers))
