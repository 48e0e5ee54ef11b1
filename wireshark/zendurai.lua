-- A dissector for Wireshark and tshark: the PDUs of a link and the telegrams in their items, as docs/PROTOCOL.md has them.
-- Tried with tshark 4.0 (Lua 5.2). Use: tshark -X lua_script:wireshark/zendurai.lua -r FILE; docs/WIRE.md has more.
--
-- The first parts read bytes, which are Lua strings there, and put them into words: they know nothing of Wireshark. Then
-- come the fields, what is kept of each link from one datagram to the next, and the tree that is shown of a datagram.

-- ---- numbers of 32 bits

-- Lua 5.2 has `bit32`, Wireshark brings `bit`, and later Luas have operators, which older ones can't even read.
local OPERATORS = [[return {
  band = function(a, b) return a & b end,
  bor = function(a, b) return a | b end,
  bxor = function(a, b) return a ~ b end,
  rol = function(a, n) return (a << n) | (a >> (32 - n)) end,
}]]
local TWO_32 = 4294967296

local function bit_operations()
  if bit32 then
    return { band = bit32.band, bor = bit32.bor, bxor = bit32.bxor, rol = bit32.lrotate }
  end
  return bit or (loadstring or load)(OPERATORS)()
end

local bits = bit_operations()

local function and32(a, b) return bits.band(a, b) % TWO_32 end
local function or32(a, b) return bits.bor(a, b) % TWO_32 end
local function xor32(a, b) return bits.bxor(a, b) % TWO_32 end
local function rotated(a, n) return bits.rol(a, n) % TWO_32 end

-- the number of 16 or 32 bits at a place of a text, counted from 0, low-order byte first
local function u16_at(text, place)
  local low, high = text:byte(place + 1, place + 2)
  return low + 256 * high
end

local function u32_at(text, place)
  return u16_at(text, place) + 65536 * u16_at(text, place + 2)
end

local function u32_bytes(number)
  local low = number % 65536
  local high = (number - low) / 65536
  return string.char(low % 256, math.floor(low / 256), high % 256, math.floor(high / 256))
end

local function hexadecimal(text)
  return (text:gsub(".", function(c) return string.format("%02x", c:byte()) end))
end

-- numbers are whole, also where a Lua has them as floats
local function decimal(number) return string.format("%.0f", number) end

-- ---- the safety code: the first 8 bytes of the MD4 digest of RFC 1320, started from a key

local STANDARD_START = "0123456789abcdeffedcba9876543210"

-- the three rounds: which word of the block each step takes, by how much it turns, and what it adds
local ROUNDS = {
  {
    words = { 0, 1, 2, 3, 4, 5, 6, 7, 8, 9, 10, 11, 12, 13, 14, 15 },
    turns = { 3, 7, 11, 19 },
    constant = 0,
    mix = function(x, y, z) return xor32(z, and32(x, xor32(y, z))) end,
  },
  {
    words = { 0, 4, 8, 12, 1, 5, 9, 13, 2, 6, 10, 14, 3, 7, 11, 15 },
    turns = { 3, 5, 9, 13 },
    constant = 0x5a827999,
    mix = function(x, y, z) return or32(and32(x, y), and32(z, or32(x, y))) end,
  },
  {
    words = { 0, 8, 4, 12, 2, 10, 6, 14, 1, 9, 5, 13, 3, 11, 7, 15 },
    turns = { 3, 9, 11, 15 },
    constant = 0x6ed9eba1,
    mix = function(x, y, z) return xor32(x, xor32(y, z)) end,
  },
}

local function block_words(text, place)
  local words = {}
  for i = 0, 15 do words[i] = u32_at(text, place + 4 * i) end
  return words
end

-- one round over the registers a, b, c, d: each step makes the next a, and the registers move on by one
local function after_round(round, words, a, b, c, d)
  for step = 1, 16 do
    local sum = (a + round.mix(b, c, d) + words[round.words[step]] + round.constant) % TWO_32
    local new = rotated(sum, round.turns[(step - 1) % 4 + 1])
    a, b, c, d = d, new, b, c
  end
  return a, b, c, d
end

local function after_block(registers, text, place)
  local words = block_words(text, place)
  local a, b, c, d = registers[1], registers[2], registers[3], registers[4]
  for _, round in ipairs(ROUNDS) do a, b, c, d = after_round(round, words, a, b, c, d) end
  return {
    (registers[1] + a) % TWO_32,
    (registers[2] + b) % TWO_32,
    (registers[3] + c) % TWO_32,
    (registers[4] + d) % TWO_32,
  }
end

-- a text is followed by a byte 80, zero bytes, and its length in bits as 64 bits
local function padded(text)
  local zeros = (55 - #text) % 64
  local length = 8 * #text
  return text .. "\128" .. string.rep("\0", zeros) .. u32_bytes(length % TWO_32) .. u32_bytes(math.floor(length / TWO_32))
end

local function safety_code(key, text)
  local registers = key
  local blocks = padded(text)
  for place = 0, #blocks - 64, 64 do registers = after_block(registers, blocks, place) end
  return u32_bytes(registers[1]) .. u32_bytes(registers[2])
end

-- the four registers that 32 hexadecimal digits spell, each with its low-order byte first; nil where they don't
local function key_of(digits)
  if #digits ~= 32 or digits:find("[^0-9a-fA-F]") then return nil end
  local bytes = digits:gsub("..", function(two) return string.char(tonumber(two, 16)) end)
  return { u32_at(bytes, 0), u32_at(bytes, 4), u32_at(bytes, 8), u32_at(bytes, 12) }
end

-- ---- telegrams

local PROTOCOLS = { [0x20] = "SCI-TDS", [0x30] = "SCI-LS", [0x40] = "SCI-P" }
local AGREEMENTS = { [1] = "mismatch", [2] = "match" }
local SIDES = { [1] = "right", [2] = "left" }
local POSITIONS = { [1] = "right", [2] = "left", [3] = "none" }
local ASPECTS = { [0x01] = "stop", [0x04] = "proceed", [0x06] = "slow" }
local OCCUPANCIES = { [1] = "clear", [2] = "occupied" }
local TELEGRAM_FAULTS = { "Short", "Protocol", "BadType", "Length", "Name", "Value" }

-- What the telegrams of a row are called and how long their payload is; `value` names the first byte by a table, and
-- `field` is where it is shown. The words of a row of `ALL` begin with the protocol.
local ALL = {
  [0x0021] = { name = "initialisation request", length = 0 },
  [0x0022] = { name = "start initialisation", length = 0 },
  [0x0023] = { name = "initialisation completed", length = 0 },
  [0x0024] = { name = "version check", length = 1, version = 1 },
  [0x0025] = { name = "version answer", length = 2, version = 2, value = AGREEMENTS, field = "agreement" },
}
local OWN = {
  [0x20] = { [0x0007] = { name = "occupancy status", length = 1, value = OCCUPANCIES, field = "occupancy" } },
  [0x30] = {
    [0x0001] = { name = "indicate aspect", length = 18, value = ASPECTS, field = "aspect", filler = true },
    [0x0003] = { name = "indicated aspect", length = 18, value = ASPECTS, field = "aspect", filler = true },
  },
  [0x40] = {
    [0x0001] = { name = "move point", length = 1, value = SIDES, field = "side" },
    [0x000B] = { name = "point position", length = 1, value = POSITIONS, field = "position" },
    [0x000C] = { name = "point timeout", length = 0, title = "timeout" },
  },
}

local function row_of(protocol, number)
  return ALL[number] or OWN[protocol][number]
end

-- the name that a field of 20 bytes holds, nil where it holds none
local function name_in(field)
  local name, rest = field:match("^([A-Za-z0-9-]+)(_*)$")
  return name and #name + #rest == 20 and name or nil
end

-- a field of 20 bytes that holds no name is shown with what can't be printed in hexadecimal digits
local function shown_name(field)
  return name_in(field) or (field:gsub("[^ -~]", function(c) return string.format("\\x%02x", c:byte()) end))
end

-- Reads an item. A telegram has `row`; what is none has `fault`, the number of the first fault, and what came before it.
local function read_telegram(item)
  local telegram = {}
  if #item < 43 then telegram.fault = 1 return telegram end
  telegram.protocol, telegram.number = item:byte(1), u16_at(item, 1)
  if not PROTOCOLS[telegram.protocol] then telegram.fault = 2 return telegram end
  telegram.row = row_of(telegram.protocol, telegram.number)
  if not telegram.row then telegram.fault = 3 return telegram end
  if #item - 43 ~= telegram.row.length then telegram.fault = 4 return telegram end
  telegram.sender, telegram.receiver = name_in(item:sub(4, 23)), name_in(item:sub(24, 43))
  if not (telegram.sender and telegram.receiver) then telegram.fault = 5 return telegram end
  local row = telegram.row
  if row.filler and item:sub(45) ~= string.rep("\255", 17) then telegram.fault = 6 return telegram end
  if row.value and not row.value[item:byte(44)] then telegram.fault = 6 return telegram end
  telegram.value = row.value and row.value[item:byte(44)]
  telegram.version = row.version and item:byte(43 + row.version)
  return telegram
end

local function telegram_words(telegram, item, sender, receiver)
  if telegram.fault then
    return "no telegram: fault " .. telegram.fault .. " " .. TELEGRAM_FAULTS[telegram.fault] .. " " .. hexadecimal(item)
  end
  local words = {}
  if ALL[telegram.number] then table.insert(words, PROTOCOLS[telegram.protocol]) end
  table.insert(words, telegram.row.name)
  if telegram.value then table.insert(words, telegram.value) end
  if telegram.version then table.insert(words, decimal(telegram.version)) end
  if telegram.sender ~= sender then table.insert(words, "from " .. telegram.sender) end
  if telegram.receiver ~= receiver then table.insert(words, "to " .. telegram.receiver) end
  return table.concat(words, " ")
end

-- ---- PDUs

local CONNECTION_REQUEST, CONNECTION_RESPONSE = 6200, 6201
local RETRANSMISSION_REQUEST, RETRANSMISSION_RESPONSE = 6212, 6213
local DISCONNECTION_REQUEST, HEARTBEAT = 6216, 6220
local DATA, RETRANSMITTED_DATA = 6240, 6241

local TYPES = {
  [CONNECTION_REQUEST] = "connection request",
  [CONNECTION_RESPONSE] = "connection response",
  [RETRANSMISSION_REQUEST] = "retransmission request",
  [RETRANSMISSION_RESPONSE] = "retransmission response",
  [DISCONNECTION_REQUEST] = "disconnection request",
  [HEARTBEAT] = "heartbeat",
  [DATA] = "data",
  [RETRANSMITTED_DATA] = "retransmitted data",
}
-- the length of the payload by type; data have items
local PAYLOADS = {
  [CONNECTION_REQUEST] = 14,
  [CONNECTION_RESPONSE] = 14,
  [RETRANSMISSION_REQUEST] = 0,
  [RETRANSMISSION_RESPONSE] = 0,
  [DISCONNECTION_REQUEST] = 4,
  [HEARTBEAT] = 0,
}
local REASONS = {
  [0] = "wish of the user",
  [1] = "a PDU that the state does not allow",
  [2] = "sequence numbers used up",
  [3] = "time",
  [4] = "another version",
  [5] = "another window or the own one full",
}
local PDU_FAULTS = { "TooShort", "Length", "Code", "BadType", "Body", "Items" }
-- an end asks again for what is at most so far ahead of what it expects
local RANGE = 200

-- the places and lengths of the items of a payload; nil where it isn't exactly 1 to 3 items of 1 to 61 bytes
local function items_in(payload)
  local items, place = {}, 0
  while place < #payload do
    if #payload - place < 2 then return nil end
    local length = u16_at(payload, place)
    if length < 1 or length > 61 or length > #payload - place - 2 or #items == 3 then return nil end
    table.insert(items, { place = place, length = length })
    place = place + 2 + length
  end
  return #items > 0 and items or nil
end

-- Reads the bytes of a datagram. What is no PDU has `fault`, the number of the first fault, and what came before it.
local function read_pdu(key, bytes)
  local pdu = {}
  if #bytes < 36 then pdu.fault = 1 return pdu end
  if u16_at(bytes, 0) ~= #bytes then pdu.fault = 2 return pdu end
  pdu.code = safety_code(key, bytes:sub(1, -9))
  if pdu.code ~= bytes:sub(-8) then pdu.fault = 3 return pdu end
  pdu.type = u16_at(bytes, 2)
  if not TYPES[pdu.type] then pdu.fault = 4 return pdu end
  local payload = bytes:sub(29, -9)
  if PAYLOADS[pdu.type] and #payload ~= PAYLOADS[pdu.type] then pdu.fault = 5 return pdu end
  if not PAYLOADS[pdu.type] then
    pdu.items = items_in(payload)
    if not pdu.items then pdu.fault = 6 return pdu end
  end
  pdu.receiver, pdu.sender = u32_at(bytes, 4), u32_at(bytes, 8)
  pdu.sn, pdu.cs = u32_at(bytes, 12), u32_at(bytes, 16)
  pdu.ts, pdu.cts = u32_at(bytes, 20), u32_at(bytes, 24)
  return pdu
end

-- ---- words

-- a node by its name where a layout was read, otherwise by its number
local function node_word(names, id) return names[id] or "#" .. decimal(id) end

local function opening_words(bytes)
  local version = bytes:sub(29, 32)
  if version:find("[^A-Za-z0-9-]") then version = hexadecimal(version) end
  return ": version " .. version .. " window " .. u16_at(bytes, 32) .. " reserved " .. hexadecimal(bytes:sub(35, 42))
end

local function closing_words(bytes)
  local detail, reason = u16_at(bytes, 28), u16_at(bytes, 30)
  return ": reason " .. reason .. " " .. (REASONS[reason] or "unknown") .. ", detail " .. detail
end

local function item_bytes(bytes, item)
  return bytes:sub(31 + item.place, 30 + item.place + item.length)
end

local function items_words(pdu, bytes, sender, receiver)
  local words = {}
  for _, item in ipairs(pdu.items) do
    local content = item_bytes(bytes, item)
    table.insert(words, telegram_words(read_telegram(content), content, sender, receiver))
  end
  return ": " .. table.concat(words, "; ")
end

local function body_words(pdu, bytes, sender, receiver)
  if pdu.type == CONNECTION_REQUEST or pdu.type == CONNECTION_RESPONSE then return opening_words(bytes) end
  if pdu.type == DISCONNECTION_REQUEST then return closing_words(bytes) end
  if pdu.items then return items_words(pdu, bytes, sender, receiver) end
  return ""
end

-- the line for a datagram, word for word that of `station decode`
local function datagram_words(names, pdu, bytes)
  if pdu.fault then return "no PDU: fault " .. pdu.fault .. " " .. PDU_FAULTS[pdu.fault] end
  local sender, receiver = node_word(names, pdu.sender), node_word(names, pdu.receiver)
  local numbers = " SN " .. decimal(pdu.sn) .. " CS " .. decimal(pdu.cs)
  numbers = numbers .. " TS " .. decimal(pdu.ts) .. " CTS " .. decimal(pdu.cts)
  return sender .. " > " .. receiver .. " " .. TYPES[pdu.type] .. numbers .. body_words(pdu, bytes, sender, receiver)
end

-- ---- a layout file: its key, and the names of its nodes

local function without_comments(text)
  local lines = {}
  for line in (text .. "\n"):gmatch("(.-)\r?\n") do table.insert(lines, (line:gsub("#.*$", ""))) end
  return table.concat(lines, "\n")
end

-- Notes the name and the identity that stand together in an inline table or behind a header.
local function note_node(names, text)
  local name, id = text:match('name%s*=%s*["\']([A-Za-z0-9-]+)["\']'), text:match("id%s*=%s*(%d+)")
  if name and id then names[tonumber(id)] = name end
end

-- No more of TOML is read than that: a layout written in another way gives no names, and then nodes have numbers.
local function read_layout(text)
  local names, plain = {}, without_comments(text)
  local behind_headers = plain:gsub("%b{}", function(inline) note_node(names, inline) return "" end)
  for part in ("\n" .. behind_headers .. "\n["):gmatch("\n%s*(%[+[%w_]+%]+.-)%f[[]") do note_node(names, part) end
  return names, plain:match('\n%s*key%s*=%s*["\'](%x+)["\']') or plain:match('[{,]%s*key%s*=%s*["\'](%x+)["\']')
end

local function file_text(name)
  local file = io.open(name, "r")
  if not file then return nil end
  local text = file:read("*a")
  file:close()
  return text
end

-- ---- fields

local rasta = Proto("rasta", "RaSTA link, profile of docs/PROTOCOL.md")
local sci = Proto("sci", "SCI telegram, profile of docs/PROTOCOL.md")

local STATUSES = { [0] = "wrong", [1] = "right" }

local f = {
  length = ProtoField.uint16("rasta.length", "Length"),
  type = ProtoField.uint16("rasta.type", "Type", base.DEC, TYPES),
  receiver = ProtoField.uint32("rasta.receiver", "Receiver"),
  receiver_name = ProtoField.string("rasta.receiver.name", "Receiver's name"),
  sender = ProtoField.uint32("rasta.sender", "Sender"),
  sender_name = ProtoField.string("rasta.sender.name", "Sender's name"),
  sn = ProtoField.uint32("rasta.sn", "Sequence number (SN)"),
  cs = ProtoField.uint32("rasta.cs", "Confirmed sequence number (CS)"),
  ts = ProtoField.uint32("rasta.ts", "Time stamp (TS), ms"),
  cts = ProtoField.uint32("rasta.cts", "Confirmed time stamp (CTS), ms"),
  payload = ProtoField.bytes("rasta.payload", "Payload"),
  version = ProtoField.string("rasta.version", "Version"),
  window = ProtoField.uint16("rasta.window", "Window"),
  reserved = ProtoField.bytes("rasta.reserved", "Reserved"),
  detail = ProtoField.uint16("rasta.detail", "Detail"),
  reason = ProtoField.uint16("rasta.reason", "Reason", base.DEC, REASONS),
  item = ProtoField.bytes("rasta.item", "Item"),
  item_length = ProtoField.uint16("rasta.item.length", "Item length"),
  code = ProtoField.bytes("rasta.code", "Safety code"),
  code_status = ProtoField.uint8("rasta.code.status", "Safety code status", base.DEC, STATUSES),
  code_expected = ProtoField.bytes("rasta.code.expected", "Safety code under the key"),
  fault = ProtoField.string("rasta.fault", "Fault"),
  words = ProtoField.string("rasta.words", "In words"),
  link = ProtoField.string("rasta.link", "Link"),
  connection = ProtoField.uint32("rasta.connection", "Connection of the link in this capture"),
  closed_in = ProtoField.framenum("rasta.closed_in", "The connection before was closed in"),
  closed_by = ProtoField.string("rasta.closed_by", "The connection before was closed by"),
  gap = ProtoField.uint32("rasta.gap", "Numbers left out before this one"),
  confirms = ProtoField.framenum("rasta.confirms", "Confirms"),
  age = ProtoField.double("rasta.age", "Age of what is confirmed, ms"),
  same_as = ProtoField.framenum("rasta.same_as", "Same bytes as"),
}
local s = {
  protocol = ProtoField.uint8("sci.protocol", "Protocol", base.HEX, PROTOCOLS),
  type = ProtoField.uint16("sci.type", "Type", base.HEX),
  name = ProtoField.string("sci.name", "Name"),
  sender = ProtoField.string("sci.sender", "Sender"),
  receiver = ProtoField.string("sci.receiver", "Receiver"),
  version = ProtoField.uint8("sci.version", "Version"),
  agreement = ProtoField.uint8("sci.agreement", "Agreement", base.DEC, AGREEMENTS),
  side = ProtoField.uint8("sci.side", "Side", base.DEC, SIDES),
  position = ProtoField.uint8("sci.position", "Position", base.DEC, POSITIONS),
  aspect = ProtoField.uint8("sci.aspect", "Aspect", base.HEX, ASPECTS),
  filler = ProtoField.bytes("sci.filler", "Filler"),
  occupancy = ProtoField.uint8("sci.occupancy", "Occupancy", base.DEC, OCCUPANCIES),
  fault = ProtoField.string("sci.fault", "Fault"),
  words = ProtoField.string("sci.words", "In words"),
}
rasta.fields, sci.fields = f, s

local e = {
  code = ProtoExpert.new("rasta.note.code", "Safety code wrong", expert.group.CHECKSUM, expert.severity.ERROR),
  fault = ProtoExpert.new("rasta.note.fault", "No PDU", expert.group.PROTOCOL, expert.severity.ERROR),
  gap = ProtoExpert.new("rasta.note.gap", "Gap in sequence numbers", expert.group.SEQUENCE, expert.severity.WARN),
  late = ProtoExpert.new("rasta.note.late", "Sequence number behind a later one", expert.group.SEQUENCE, expert.severity.WARN),
  repeated = ProtoExpert.new("rasta.note.repeated", "Repeated datagram", expert.group.SEQUENCE, expert.severity.NOTE),
  retransmission = ProtoExpert.new("rasta.note.retransmission", "Retransmission", expert.group.SEQUENCE, expert.severity.NOTE),
  opening = ProtoExpert.new("rasta.note.opening", "Opening", expert.group.SEQUENCE, expert.severity.CHAT),
  closing = ProtoExpert.new("rasta.note.closing", "Closing", expert.group.SEQUENCE, expert.severity.NOTE),
}
local sci_fault = ProtoExpert.new("sci.note.fault", "No telegram", expert.group.PROTOCOL, expert.severity.ERROR)
rasta.experts, sci.experts = e, { sci_fault }

-- ---- preferences

local KEY_HELP = "32 hexadecimal digits, as `key` of a layout has them: four registers, low-order byte first, from which "
  .. "the safety code starts. The default is the standard start of MD4"
local LAYOUT_HELP = "A layout file, by which nodes are called by their names. Its key is used, where it has one"
rasta.prefs.key = Pref.string("Key", STANDARD_START, KEY_HELP)
rasta.prefs.layout = Pref.string("Layout file", "", LAYOUT_HELP)

local key = key_of(STANDARD_START)
local names = {}

local function apply_preferences()
  local text = rasta.prefs.layout ~= "" and file_text(rasta.prefs.layout) or ""
  local digits
  names, digits = read_layout(text)
  key = key_of(digits or rasta.prefs.key) or key_of(STANDARD_START)
end

rasta.prefs_changed = apply_preferences

-- ---- what is kept of links from one datagram to the next

-- `ends[sender > receiver]` has the greatest number that was sent so and what was sent under each number; `links[a - b]`
-- the connections of a link; `noted[frame]` what was found at the first look at a frame, for every later one.
local ends, links, noted = {}, {}, {}

function rasta.init()
  ends, links, noted = {}, {}, {}
  apply_preferences()
end

local function end_of(sender, receiver)
  local name = decimal(sender) .. ">" .. decimal(receiver)
  ends[name] = ends[name] or { sent = {} }
  return ends[name]
end

local function link_name(pdu)
  return decimal(math.min(pdu.sender, pdu.receiver)) .. "-" .. decimal(math.max(pdu.sender, pdu.receiver))
end

local function link_of(pdu)
  local name = link_name(pdu)
  links[name] = links[name] or { connections = 0 }
  return links[name]
end

-- Compares a number with the greatest that its sender has sent. An opening begins anew: its end may have been made anew.
local function note_number(note, from, pdu, frame)
  local before = from.sent[pdu.sn]
  local opens = pdu.type == CONNECTION_REQUEST or pdu.type == CONNECTION_RESPONSE
  if before and before.bytes == pdu.bytes then note.same_as = before.frame return end
  local ahead = from.last and (pdu.sn - from.last - 1) % TWO_32
  if ahead and not opens and ahead >= 1 and ahead <= RANGE then note.gap = ahead end
  if ahead and not opens and ahead >= TWO_32 / 2 then note.late = true return end
  from.last = pdu.sn
  from.sent[pdu.sn] = { frame = frame, bytes = pdu.bytes, time = note.time, ts = pdu.ts }
end

-- The datagram that is confirmed, and how long ago it was sent: what is taken of this datagram is no older than that.
local function note_confirmed(note, pdu)
  local confirmed = end_of(pdu.receiver, pdu.sender).sent[pdu.cs]
  if confirmed and confirmed.ts == pdu.cts then
    note.confirms = confirmed.frame
    note.age = (note.time - confirmed.time) * 1000
  end
end

local function note_connection(note, pdu, frame)
  local link = link_of(pdu)
  if pdu.type == CONNECTION_REQUEST and not note.same_as then
    note.closed = link.closed
    note.again = link.connections > 0
    link.connections, link.closed = link.connections + 1, nil
  end
  if pdu.type == DISCONNECTION_REQUEST then
    link.closed = { frame = frame, sender = pdu.sender, reason = pdu.reason }
  end
  note.connection = link.connections
end

local function note_of(pdu, pinfo)
  local frame = pinfo.number
  if not (pinfo.visited and noted[frame]) then
    local note = { time = pinfo.rel_ts }
    note_number(note, end_of(pdu.sender, pdu.receiver), pdu, frame)
    note_confirmed(note, pdu)
    note_connection(note, pdu, frame)
    noted[frame] = note
  end
  return noted[frame]
end

-- ---- the tree of a datagram

local function generated(item) item:set_generated() return item end

local function add_telegram_values(tree, range, telegram)
  local row = telegram.row
  if row.field then tree:add(s[row.field], range(43, 1)) end
  if row.version then tree:add(s.version, range(42 + row.version, 1)) end
  if row.filler then tree:add(s.filler, range(44, 17)) end
end

local function row_title(row)
  return row and " (" .. (row.title or row.name) .. ")" or ""
end

-- The fields of an item as far as they can be told apart.
local function add_telegram(tree, range, sender, receiver)
  local item = range:bytes():raw()
  local telegram = read_telegram(item)
  local words = telegram_words(telegram, item, sender, receiver)
  local branch = tree:add(sci, range, "Telegram: " .. words)
  if #item >= 43 then
    branch:add(s.protocol, range(0, 1))
    branch:add_le(s.type, range(1, 2)):append_text(row_title(telegram.row))
    branch:add(s.sender, range(3, 20), shown_name(item:sub(4, 23)))
    branch:add(s.receiver, range(23, 20), shown_name(item:sub(24, 43)))
  end
  if telegram.row then generated(branch:add(s.name, telegram.row.name)) end
  if telegram.row and #item - 43 == telegram.row.length then add_telegram_values(branch, range, telegram) end
  generated(branch:add(s.words, words))
  if telegram.fault then
    local fault = telegram.fault .. " " .. TELEGRAM_FAULTS[telegram.fault]
    generated(branch:add(s.fault, fault)):add_proto_expert_info(sci_fault, "no telegram: fault " .. fault)
  end
end

local function add_items(tree, tvb, pdu)
  local sender, receiver = node_word(names, pdu.sender), node_word(names, pdu.receiver)
  for _, item in ipairs(pdu.items) do
    local place = 28 + item.place
    local content = tvb(place + 2, item.length)
    tree:add_le(f.item_length, tvb(place, 2))
    add_telegram(tree:add(f.item, content), content, sender, receiver)
  end
end

local function add_opening(tree, tvb)
  local version = tvb(28, 4):bytes():raw()
  tree:add(f.version, tvb(28, 4), version:find("[^A-Za-z0-9-]") and hexadecimal(version) or version)
  tree:add_le(f.window, tvb(32, 2))
  tree:add(f.reserved, tvb(34, 8))
end

local function add_closing(tree, tvb)
  tree:add_le(f.detail, tvb(28, 2))
  tree:add_le(f.reason, tvb(30, 2))
end

local function add_body(tree, tvb, pdu)
  local length = tvb:len() - 36
  if pdu.items then
    add_items(tree, tvb, pdu)
  elseif pdu.fault then
    if length > 0 then tree:add(f.payload, tvb(28, length)) end
  elseif pdu.type == DISCONNECTION_REQUEST then
    add_closing(tree, tvb)
  elseif length == 14 then
    add_opening(tree, tvb)
  end
end

local function add_node(tree, tvb, place, field, name_field)
  tree:add_le(field, tvb(place, 4))
  local name = names[u32_at(tvb(place, 4):bytes():raw(), 0)]
  if name then generated(tree:add(name_field, name)) end
end

local function add_code(tree, tvb, pdu)
  local branch = tree:add(f.code, tvb(tvb:len() - 8, 8))
  if not pdu.code then return end
  local is_right = pdu.fault ~= 3
  generated(branch:add(f.code_status, is_right and 1 or 0))
  if not is_right then
    generated(branch:add(f.code_expected, ByteArray.new(hexadecimal(pdu.code)):tvb("code")()))
    branch:add_proto_expert_info(e.code, "no PDU: fault 3 Code: the safety code is wrong")
  end
end

-- The fields that every PDU has, and the payload. Bytes that are too short for them have none.
local function add_fields(tree, tvb, pdu)
  if tvb:len() < 36 then return end
  tree:add_le(f.length, tvb(0, 2))
  tree:add_le(f.type, tvb(2, 2))
  add_node(tree, tvb, 4, f.receiver, f.receiver_name)
  add_node(tree, tvb, 8, f.sender, f.sender_name)
  tree:add_le(f.sn, tvb(12, 4))
  tree:add_le(f.cs, tvb(16, 4))
  tree:add_le(f.ts, tvb(20, 4))
  tree:add_le(f.cts, tvb(24, 4))
  add_body(tree, tvb, pdu)
  add_code(tree, tvb, pdu)
end

local function add_sequence(tree, note)
  if note.gap then
    generated(tree:add(f.gap, note.gap)):add_proto_expert_info(e.gap, "gap in sequence numbers: " .. decimal(note.gap) .. " left out")
  end
  if note.late then tree:add_proto_expert_info(e.late, "sequence number behind a later one") end
  if note.same_as then
    generated(tree:add(f.same_as, note.same_as)):add_proto_expert_info(e.repeated, "repeated: the same bytes were there before")
  end
  if note.confirms then
    generated(tree:add(f.confirms, note.confirms))
    generated(tree:add(f.age, note.age))
  end
end

local function reason_text(reason) return reason .. " " .. (REASONS[reason] or "unknown") end

-- Why the connection before ended, at the request that opens the next one.
local function add_opened(tree, note)
  local closed = note.closed
  if closed then
    generated(tree:add(f.closed_in, closed.frame))
    generated(tree:add(f.closed_by, "#" .. decimal(closed.sender) .. ", reason " .. reason_text(closed.reason)))
  elseif note.again then
    generated(tree:add(f.closed_by, "no request in this capture: by time, or an end was made anew"))
  end
  tree:add_proto_expert_info(e.opening, "connection " .. note.connection .. " of link " .. note.link .. " is asked for")
end

-- What a PDU brings about; a repeated one brings nothing about.
local function add_remarks(tree, pdu, note)
  if note.same_as then return end
  if pdu.type == CONNECTION_REQUEST then add_opened(tree, note) end
  if pdu.type == DISCONNECTION_REQUEST then
    tree:add_proto_expert_info(e.closing, "closing: reason " .. reason_text(pdu.reason))
  elseif pdu.type == RETRANSMISSION_REQUEST then
    tree:add_proto_expert_info(e.retransmission, "retransmission is asked for: all behind SN " .. decimal(pdu.cs))
  elseif pdu.type == RETRANSMISSION_RESPONSE then
    tree:add_proto_expert_info(e.retransmission, "retransmission begins")
  elseif pdu.type == RETRANSMITTED_DATA then
    tree:add_proto_expert_info(e.retransmission, "retransmitted data")
  end
end

local function add_link(tree, pdu, pinfo)
  local note = note_of(pdu, pinfo)
  note.link = link_name(pdu)
  generated(tree:add(f.link, note.link))
  generated(tree:add(f.connection, note.connection))
  add_sequence(tree, note)
  add_remarks(tree, pdu, note)
end

-- Why bytes are no PDU. Where it is the code, the note stands at the code.
local function add_fault(tree, pdu)
  local fault = pdu.fault .. " " .. PDU_FAULTS[pdu.fault]
  local item = generated(tree:add(f.fault, fault))
  if pdu.fault ~= 3 then item:add_proto_expert_info(e.fault, "no PDU: fault " .. fault) end
end

local function protocol_column(pdu, bytes)
  if not pdu.items then return "RaSTA" end
  return PROTOCOLS[item_bytes(bytes, pdu.items[1]):byte(1)] or "RaSTA"
end

function rasta.dissector(tvb, pinfo, root)
  -- Of a datagram that the capture cut off nothing can be told.
  if tvb:len() == 0 or tvb:reported_len() > tvb:len() then return 0 end
  local bytes = tvb():bytes():raw()
  local pdu = read_pdu(key, bytes)
  pdu.bytes = bytes
  if not pdu.fault and pdu.type == DISCONNECTION_REQUEST then pdu.reason = u16_at(bytes, 30) end
  local words = datagram_words(names, pdu, bytes)
  pinfo.cols.protocol = pdu.fault and "RaSTA" or protocol_column(pdu, bytes)
  pinfo.cols.info = words
  local tree = root:add(rasta, tvb(), "RaSTA: " .. words)
  add_fields(tree, tvb, pdu)
  generated(tree:add(f.words, words))
  if pdu.fault then
    add_fault(tree, pdu)
  else
    add_link(tree, pdu, pinfo)
  end
  return tvb:len()
end

-- ---- which datagrams are read

-- A datagram of a link is told by its length field and its type; one whose type is damaged by its code. Ports tell nothing:
-- the sockets of a station on loopback send to themselves.
local function seems_a_pdu(tvb)
  if tvb:len() < 36 or tvb:reported_len() > tvb:len() then return false end
  local bytes = tvb():bytes():raw()
  if u16_at(bytes, 0) ~= #bytes then return false end
  return TYPES[u16_at(bytes, 2)] ~= nil or safety_code(key, bytes:sub(1, -9)) == bytes:sub(-8)
end

-- What follows between the same addresses and ports is read too, so that damaged bytes are told there.
local function heuristic(tvb, pinfo, root)
  if not seems_a_pdu(tvb) then return false end
  pinfo.conversation = rasta
  rasta.dissector(tvb, pinfo, root)
  return true
end

rasta:register_heuristic("udp", heuristic)
DissectorTable.get("udp.port"):add_for_decode_as(rasta)
