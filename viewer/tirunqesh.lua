-- Shows the packets of a capture that bin/capture wrote, in Wireshark and in tshark: link type 147, USER 0. docs/DESK.md says how it is loaded.
-- A record holds a packet from its format byte to its last payload byte, and its time is the packet's number. What no sender would accept is
-- shown as far as it can be read, with the reason: bin/replay refuses it with 62, and with 61 what was cut short.
-- This is a script and proves nothing: it shows bytes.
local packets = Proto("tirunqesh", "Tirunqesh data packet")

local formats = { [0x21] = "everybody's", [0x26] = "restricted" }
local fields = {
    format = ProtoField.uint8("tirunqesh.format", "Format", base.HEX, formats),
    key_length = ProtoField.uint8("tirunqesh.key.length", "Key length", base.DEC),
    key_number = ProtoField.uint8("tirunqesh.key.number", "Key number", base.DEC),
    key = ProtoField.bytes("tirunqesh.key", "Key"),
    port = ProtoField.uint16("tirunqesh.port", "Port", base.HEX_DEC),
    class = ProtoField.string("tirunqesh.class", "Class"),
    sequence = ProtoField.uint16("tirunqesh.sequence", "Sequence", base.DEC),
    payload = ProtoField.bytes("tirunqesh.payload", "Payload"),
    payload_length = ProtoField.uint32("tirunqesh.payload.length", "Payload length", base.DEC),
    text = ProtoField.string("tirunqesh.text", "Text"),
}
packets.fields = fields

local cut = ProtoExpert.new("tirunqesh.cut", "Cut short", expert.group.MALFORMED, expert.severity.ERROR)
local refused = ProtoExpert.new("tirunqesh.refused", "No packet", expert.group.MALFORMED, expert.severity.ERROR)
packets.experts = { cut, refused }

-- The last port of each range with the letter of its class, as in a listing, and its name; 7D00 to 7EFF have none.
local classes = {
    { 0x0400, "S", "system" },
    { 0x50FF, "A", "applications" },
    { 0x5100, "M", "main program service data" },
    { 0x5200, "S", "system" },
    { 0x5207, "D", "supplemental program service data" },
    { 0x52FF, "S", "system" },
    { 0x7CFF, "F", "future applications" },
    { 0x7EFF },
    { 0xFEFF, "F", "future applications" },
    { 0xFFFF, "S", "system" },
}

local function class_of(port)
    for _, class in ipairs(classes) do
        if port <= class[1] then return class[2], class[3] end
    end
end

-- The length of a payload as escaped: each 7D and 7E counts twice.
local function escaped_length(payload)
    local _, twice = payload:gsub("[}~]", "")
    return #payload + twice
end

-- Format and key: the place behind them; none where a fault is found.
local function take_opening(bytes, packet)
    if bytes:len() == 0 then packet.fault = "the record is empty" return end
    packet.format = bytes(0, 1)
    if packet.format:uint() == 0x21 then return 1 end
    if packet.format:uint() ~= 0x26 then packet.fault = "the format is neither 0x21 nor 0x26" return end
    if bytes:len() < 3 then packet.fault = "it ends before its key" return end
    packet.key_length, packet.key_number = bytes(1, 1), bytes(2, 1)
    local length = packet.key_length:uint()
    if length < 2 or length > 32 then packet.fault = "the key length is outside 2 to 32" return end
    if bytes:len() < 3 + length then packet.fault = "it ends inside its key" return end
    packet.key = bytes(3, length)
    return 3 + length
end

-- The parts of a record, as far as they are there; and, where it is no packet, the first fault.
local function take_apart(bytes)
    local packet = {}
    local at = take_opening(bytes, packet)
    if not at then return packet end
    if bytes:len() < at + 4 then packet.fault = "it ends before its payload" return packet end
    packet.port, packet.sequence = bytes(at, 2), bytes(at + 2, 2)
    packet.letter, packet.name = class_of(packet.port:le_uint())
    if not packet.letter then packet.fault = "the port may not be used" end
    if bytes:len() == at + 4 then packet.fault = packet.fault or "the payload is empty" return packet end
    packet.payload = bytes(at + 4)
    local payload = packet.payload:raw()
    packet.printable = not payload:find("[^ -~]")
    if escaped_length(payload) > 8192 then packet.fault = packet.fault or "the payload is above 8,192 bytes as escaped" end
    return packet
end

local function show(packet, tree)
    for _, name in ipairs({ "format", "key_length", "key_number", "key" }) do
        if packet[name] then tree:add(fields[name], packet[name]) end
    end
    if packet.port then
        tree:add_le(fields.port, packet.port)
        if packet.letter then
            tree:add(fields.class, packet.port, packet.letter):append_text(" (" .. packet.name .. ")"):set_generated()
        end
        tree:add_le(fields.sequence, packet.sequence)
    end
    if packet.payload then
        tree:add(fields.payload, packet.payload)
        tree:add(fields.payload_length, packet.payload, packet.payload:len()):set_generated()
        if packet.printable then tree:add(fields.text, packet.payload) end
    end
end

-- PORT SEQUENCE CLASS, the key's number where it is restricted, and the payload's length and text.
local function told(packet)
    local key = packet.key and ", restricted, key " .. packet.key_number:uint() or ""
    local text = packet.printable and ": " .. packet.payload:string() or ""
    return string.format("%d %d %s%s, %d bytes%s", packet.port:le_uint(), packet.sequence:le_uint(), packet.letter, key, packet.payload:len(), text)
end

function packets.dissector(bytes, pinfo, root)
    local tree = root:add(packets, bytes())
    local packet = take_apart(bytes)
    pinfo.cols.protocol = "Tirunqesh"
    show(packet, tree)
    if packet.port then pinfo.cols.dst = tostring(packet.port:le_uint()) end
    if bytes:len() < bytes:reported_len() then
        pinfo.cols.info = "cut short"
        tree:add_proto_expert_info(cut, "Cut short: replay refuses it with 61")
    elseif packet.fault then
        pinfo.cols.info = "no packet: " .. packet.fault
        tree:add_proto_expert_info(refused, "No packet: " .. packet.fault .. ". Replay refuses it with 62")
    else
        pinfo.cols.info = told(packet)
    end
    return bytes:len()
end

DissectorTable.get("wtap_encap"):add((wtap_encaps or wtap).USER0, packets)
