-- Wireshark's dissector of Polvathur's packets, of both versions.
--
--   tshark -X lua_script:tools/homa.lua -r run.pcapng                       what `tools/export-trace pcap` wrote
--   tshark -X lua_script:tools/homa.lua -o homa.ports:4600-4603 -i lo       live, beside `homa node` with these ports
--
-- A datagram is taken for a packet by its port alone, and only where it begins as packets do.
local homa = Proto("homa", "Homa (Polvathur)")
homa.prefs.ports = Pref.string("Ports", "4000-4031", "the ports of host 0, 1, 2 and so on, as 4000-4007,4100")

local KINDS = { "DATA", "GRANT", "RESEND", "BUSY", "CUTOFFS", "UNKNOWN", "NEED_ACK", "ACK" }
local ROLES = { [0] = "client", [1] = "server" }
local REASONS = { [0] = "no record", [1] = "ran and is forgotten" }
local LONGEST, LAST_TICK = 1000000, UInt64.new(0xd4a517d0, 0xe8) -- bytes of a message; tick 1,000,000,002,000

local f = homa.fields
f.version = ProtoField.uint8("homa.version", "Version")
f.kind = ProtoField.uint8("homa.kind", "Kind", base.DEC, KINDS)
f.role = ProtoField.uint8("homa.role", "Sender's role", base.DEC, ROLES)
f.level = ProtoField.uint8("homa.level", "Level")
f.inc = ProtoField.uint32("homa.inc", "Sender's incarnation")
f.call_inc = ProtoField.uint32("homa.call_inc", "Call's incarnation")
f.seq = ProtoField.uint32("homa.seq", "Call's sequence number")
f.clock = ProtoField.uint64("homa.clock", "Sender's clock")
f.call = ProtoField.string("homa.call", "Call")
f.since_call = ProtoField.relative_time("homa.since_call", "Since the call's first packet")
f.length = ProtoField.uint32("homa.length", "Message length")
f.offset = ProtoField.uint32("homa.offset", "Offset")
f.size = ProtoField.uint32("homa.size", "Payload bytes")
f.cutoffs = ProtoField.uint16("homa.cutoffs", "Version of the cutoffs")
f.service = ProtoField.uint8("homa.service", "Service")
f.ack = ProtoField.uint8("homa.ack", "Acknowledges a call")
f.ack_inc = ProtoField.uint32("homa.ack_inc", "Acknowledged call's incarnation")
f.ack_seq = ProtoField.uint32("homa.ack_seq", "Acknowledged call's sequence number")
f.prio = ProtoField.uint8("homa.prio", "Priority")
f.from = ProtoField.uint32("homa.from", "From")
f.to = ProtoField.uint32("homa.to", "To")
f.bound = ProtoField.uint32("homa.bound", "Bound")
f.reason = ProtoField.uint8("homa.reason", "Reason", base.DEC, REASONS)
f.count = ProtoField.uint8("homa.count", "Calls")
f.payload = ProtoField.bytes("homa.payload", "Payload")
f.again = ProtoField.bool("homa.again", "Bytes that were sent before")
f.asked_in = ProtoField.framenum("homa.asked_in", "Asked for by the RESEND in")

local function note(name, text)
  return ProtoExpert.new(name, text, expert.group.SEQUENCE, expert.severity.NOTE)
end

local ERROR, WARN = expert.severity.ERROR, expert.severity.WARN
local malformed = ProtoExpert.new("homa.malformed", "No packet, by the grammar", expert.group.MALFORMED, ERROR)
local resend = note("homa.resend", "Bytes are asked for again")
local repeated = note("homa.retransmission", "Bytes are sent again")
local gone = ProtoExpert.new("homa.gone", "The server has no record", expert.group.SEQUENCE, WARN)
homa.experts = { malformed, resend, repeated, gone }

-- Of each kind its fields behind the header, with their widths.
local BODIES = {
  DATA = {
    { f.length, 4 }, { f.offset, 4 }, { f.cutoffs, 2 }, { f.service, 1 },
    { f.ack, 1 }, { f.ack_inc, 4 }, { f.ack_seq, 4 },
  },
  GRANT = { { f.offset, 4 }, { f.prio, 1 } },
  RESEND = { { f.from, 4 }, { f.to, 4 }, { f.prio, 1 } },
  CUTOFFS = { { f.cutoffs, 2 } },
  UNKNOWN = { { f.reason, 1 } },
  ACK = { { f.count, 1 } },
  BUSY = {}, NEED_ACK = {},
}
for _ = 1, 8 do table.insert(BODIES.CUTOFFS, { f.bound, 4 }) end

local interface = Field.new("frame.interface_id")
local hosts = {} -- by port
-- What earlier frames said: of a call its first time, of a message how far it was sent and which RESENDs asked for it;
-- and by the number of a frame what was found of it as it came first.
local begun, tops, asked, found = {}, {}, {}, {}

function homa.init()
  begun, tops, asked, found = {}, {}, {}, {}
end

local function between(n, least, most)
  return n >= least and n <= most
end

-- Whether the numbers of each kind are in their ranges: `n` has those of its body, `size` the payload's bytes.
local FITS = {
  DATA = function(n, is_server, size)
    local is_quiet = n[5] == 0 and n[6] == 0 and n[7] == 0
    local is_acking = n[5] == 1 and n[6] >= 1
    return between(size, 1, 1400) and between(n[1], 1, LONGEST) and n[2] + size <= n[1] and (is_quiet or is_acking)
      and not (is_server and (n[4] ~= 0 or n[5] ~= 0))
  end,
  GRANT = function(n) return between(n[1], 1, LONGEST) and n[2] <= 7 end,
  RESEND = function(n) return n[1] < n[2] and n[2] <= LONGEST and n[3] <= 7 end,
  BUSY = function() return true end,
  CUTOFFS = function(n)
    for i = 2, 9 do if n[i] > LONGEST then return false end end
    return true
  end,
  UNKNOWN = function(n, is_server) return is_server and n[1] <= 1 end,
  NEED_ACK = function(_, is_server) return is_server end,
  ACK = function(n, is_server)
    for i = 2, #n, 2 do if n[i] < 1 then return false end end
    return not is_server and between(n[1], 1, 5) and #n == 1 + 2 * (n[1] - 1)
  end,
}

-- What the Info column says behind the kind, the role and the call.
local SAYS = {
  DATA = function(n, size, level) return string.format(" %d+%d of %d, level %d", n[2], size, n[1], level) end,
  GRANT = function(n) return string.format(" up to %d, level %d", n[1], n[2]) end,
  RESEND = function(n) return string.format(" %d..%d, level %d", n[1], n[2], n[3]) end,
  CUTOFFS = function(n) return string.format(" version %d", n[1]) end,
  UNKNOWN = function(n) return " " .. (REASONS[n[1]] or n[1]) end,
  ACK = function(n) return n[1] > 1 and string.format(" and %d more", n[1] - 1) or "" end,
  BUSY = function() return "" end,
  NEED_ACK = function() return "" end,
}

-- The numbers of the body, each added to the tree, and the place behind them; none where bytes are missing.
local function body_of(buf, tree, kind, at)
  local fields, n = BODIES[kind], {}
  local function take(field, width)
    if at + width > buf:len() then return false end
    tree:add(field, buf(at, width))
    n[#n + 1] = buf(at, width):uint()
    at = at + width
    return true
  end
  for _, it in ipairs(fields) do if not take(it[1], it[2]) then return nil, at end end
  if kind == "ACK" then
    for _ = 2, n[1] do if not (take(f.ack_inc, 4) and take(f.ack_seq, 4)) then return nil, at end end
  end
  return n, at
end

local function add_time(tree, info, call)
  if not info.visited and not begun[call] then begun[call] = info.rel_ts end
  if not begun[call] then return end
  local time = math.max(0, info.rel_ts - begun[call])
  tree:add(f.since_call, NSTime.new(math.floor(time), math.floor(time % 1 * 1e9 + 0.5))):set_generated()
end

-- A frame at the sender's interface and one at the receiver's are one packet: each is looked at among those of its
-- own.
local function key_of(call, role, ...)
  local it = interface()
  return table.concat({ call, role, it and tostring(it.value) or "", ... }, " ")
end

local function note_data(info, call, role, inc, n, size)
  local key, ends = key_of(call, role, inc), n[2] + size
  local it = { is_again = n[2] < (tops[key] or 0) }
  tops[key] = math.max(tops[key] or 0, ends)
  for _, ask in ipairs(it.is_again and asked[key_of(call, role)] or {}) do
    if ask.from < ends and ask.to > n[2] then it.asked_in = ask.number end
  end
  found[info.number] = it
end

local function note_resend(info, call, role, n)
  local key = key_of(call, 1 - role) -- it asks for the other side's message
  asked[key] = asked[key] or {}
  table.insert(asked[key], { from = n[1], to = n[2], number = info.number })
end

local function add_analysis(tree, info, kind)
  local it = found[info.number]
  if it and it.is_again then
    tree:add(f.again, true):set_generated()
    tree:add_proto_expert_info(repeated)
    if it.asked_in then tree:add(f.asked_in, it.asked_in):set_generated() end
  end
  if kind == "RESEND" then tree:add_proto_expert_info(resend) end
  if kind == "UNKNOWN" then tree:add_proto_expert_info(gone) end
end

-- Whether the header's numbers are in their ranges.
local function is_head(buf, kind)
  local is_in_time = buf(0, 1):uint() == 1 or buf(16, 8):uint64() <= LAST_TICK
  local level, inc, call_inc = buf(3, 1):uint(), buf(4, 4):uint(), buf(8, 4):uint()
  return inc >= 1 and call_inc >= 1 and is_in_time and level <= 7 and (kind == "DATA" or level == 7)
end

local function add_head(buf, tree)
  for i, it in ipairs({ f.version, f.kind, f.role, f.level }) do tree:add(it, buf(i - 1, 1)) end
  tree:add(f.inc, buf(4, 4))
  tree:add(f.call_inc, buf(8, 4))
  tree:add(f.seq, buf(12, 4))
  if buf(0, 1):uint() == 2 then tree:add(f.clock, buf(16, 8)) end
end

function homa.dissector(buf, info, root)
  local whole = buf:reported_len()
  if buf:len() < 16 or not between(buf(0, 1):uint(), 1, 2) then return 0 end
  local kind, role, at = KINDS[buf(1, 1):uint()], buf(2, 1):uint(), buf(0, 1):uint() == 2 and 24 or 16
  if not kind or role > 1 or buf:len() < at then return 0 end
  local client = hosts[role == 0 and info.src_port or info.dst_port] or "?"
  local call = string.format("%s.%d.%d", client, buf(8, 4):uint(), buf(12, 4):uint())
  local tree = root:add(homa, buf())
  info.cols.protocol = "Homa"
  info.cols.info = string.format("%s %s %s", kind, role == 0 and "c" or "s", call)
  add_head(buf, tree)
  tree:add(f.call, call):set_generated()
  add_time(tree, info, call)
  local n, behind = body_of(buf, tree, kind, at)
  local size = whole - behind
  if n then info.cols.info:append(SAYS[kind](n, size, buf(3, 1):uint())) end
  if n and kind == "DATA" then
    tree:add(f.size, size):set_generated()
    if buf:len() > behind then tree:add(f.payload, buf(behind)) end
  end
  if not n or not is_head(buf, kind) or not FITS[kind](n, role == 1, size) or (kind ~= "DATA" and size ~= 0) then
    tree:add_proto_expert_info(malformed)
    info.cols.info:append(" [no packet]")
    return whole
  end
  if not info.visited and kind == "DATA" then note_data(info, call, role, buf(4, 4):uint(), n, size) end
  if not info.visited and kind == "RESEND" then note_resend(info, call, role, n) end
  add_analysis(tree, info, kind)
  return whole
end

local by_port = DissectorTable.get("udp.port")

local function take_ports()
  for port in pairs(hosts) do by_port:remove(port, homa) end
  hosts = {}
  local host = 0
  for first, last in string.gmatch(homa.prefs.ports, "(%d+)%-?(%d*)") do
    for port = tonumber(first), math.min(tonumber(last) or tonumber(first), tonumber(first) + 65535) do
      if port >= 1 and port <= 65535 and not hosts[port] then
        hosts[port] = host
        by_port:add(port, homa)
      end
      host = host + 1
    end
  end
end

homa.prefs_changed = take_ports
take_ports()
