-- Wireshark: shows the telemetry in front of the frames of `OUT.wire.S.P.pcap`, the captures of links that `hydra run`
-- writes. The header type `hydra_tele_t` of a linked text, `OUT.linked.S.p4`, says what stands there; it is the same at all
-- switches of a run. The text is named
--   by a word: tshark -X lua_script:hydra.lua -X lua_script1:OUT.linked.S.p4 -r OUT.wire.S.P.pcap -V
--   or by the preference "hydra.linked".
-- By a word its fields can be filtered by their names too, as `hydra.hydra_v_0_0 == 1`; Wireshark takes no new names of
-- fields behind its start. Without a linked text, and where a frame does not begin with the mark, all is Ethernet.

local hydra = Proto("hydra", "Hydra telemetry")
hydra.prefs.linked = Pref.string("Linked text", "", "The file OUT.linked.S.p4; only for captures of links")

-- Reads the fields of the telemetry, each with its name and width in bits, and the mark with which it begins.
local function read_layout(name)
  local file, why = io.open(name, "rb")
  if not file then return nil, why end
  local text = file:read("*a")
  file:close()
  local body = text:match("header%s+hydra_tele_t%s*{(.-)}")
  local mark = text:match("hydra_mark%s*=%s*8w(%d+)")
  if not body or not mark then return nil, name .. ": no header type hydra_tele_t and mark" end
  local layout = { mark = tonumber(mark), bits = 0 }
  for width, field in body:gmatch("bit%s*<%s*(%d+)%s*>%s*([%w_]+)%s*;") do
    table.insert(layout, { name = field, width = tonumber(width), at = layout.bits })
    layout.bits = layout.bits + tonumber(width)
  end
  layout.bytes = math.ceil(layout.bits / 8)
  return layout
end

-- The value of a field: a number up to 64 bits, and else a text in hexadecimal.
local function value_of(buffer, field)
  if field.width <= 64 then
    local value = buffer(0):bitfield(field.at, field.width)
    return type(value) == "number" and UInt64(value) or value
  end
  local text, at, left = "0x", field.at, field.width
  while left > 0 do
    local part = (left - 1) % 32 + 1
    local digits = math.ceil(part / 4)
    text = text .. string.format("%0" .. digits .. "x", buffer(0):bitfield(at, part))
    at, left = at + part, left - part
  end
  return text
end

-- Gives each field a name to filter by.
local function name_fields(layout)
  local fields = {}
  for _, field in ipairs(layout) do
    local kind = field.width <= 64 and ProtoField.uint64 or ProtoField.string
    field.proto = kind("hydra." .. field.name, field.name)
    table.insert(fields, field.proto)
  end
  hydra.fields = fields
end

local function show_field(tree, buffer, field)
  local first = math.floor(field.at / 8)
  local behind = math.ceil((field.at + field.width) / 8)
  local range, value = buffer(first, behind - first), value_of(buffer, field)
  local text = string.format("%s (bit<%d>): %s", field.name, field.width, tostring(value))
  if not field.proto then
    tree:add(range, text)
  else
    tree:add(field.proto, range, value):set_text(text)
  end
end

local named = ...
local layout, fault
if named then
  layout, fault = read_layout(named)
  if not layout then error(fault, 0) end
  name_fields(layout)
end

function hydra.prefs_changed()
  if named then return end
  layout, fault = nil, nil
  if hydra.prefs.linked ~= "" then layout, fault = read_layout(hydra.prefs.linked) end
end

local encapsulations = DissectorTable.get("wtap_encap")
local kind = (wtap_encaps or wtap).ETHERNET
local ethernet = encapsulations:get_dissector(kind)

function hydra.dissector(buffer, pinfo, tree)
  if fault then tree:add(hydra, buffer(0, 0), "Hydra telemetry: " .. fault) end
  local length = buffer:len()
  if not layout or length < layout.bytes or buffer(0, 1):uint() ~= layout.mark then
    return ethernet:call(buffer, pinfo, tree)
  end
  local front = tree:add(hydra, buffer(0, layout.bytes), string.format("Hydra telemetry, %d bytes", layout.bytes))
  for _, field in ipairs(layout) do
    show_field(front, buffer, field)
  end
  -- Of a frame that is too short for it, Ethernet's own dissector says so in the tree, and then raises an error.
  if length > layout.bytes then pcall(ethernet.call, ethernet, buffer(layout.bytes):tvb(), pinfo, tree) end
  return length
end

encapsulations:add(kind, hydra)
