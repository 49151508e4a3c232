-- Shows frames of `ttplab frames` in Wireshark 4 and tshark; docs/FRAMES.md has the commands.
--
-- A packet of link type USER1 (148) is the C-state of the sender, which is not on the bus, and behind it the bytes of the frame;
-- where no bytes follow, noise was on the channel. One of USER0 (147) is the bytes alone. The preferences are what the first line
-- of the text says: ttpc.version is 1 or 2, and ttpc.schedule has six hexadecimal digits.

local band, bxor, lshift, rshift = bit.band, bit.bxor, bit.lshift, bit.rshift

local ttpc = Proto("ttpc", "TTP/C frame")
ttpc.prefs.version = Pref.uint("Version", 1, "That of the list: members take two bytes in version 1, three in version 2")
ttpc.prefs.schedule = Pref.string("Schedule", "000000", "From which number check words start: six hexadecimal digits")

local IMPLICIT = 0
local KINDS = { [0] = "N", [1] = "I", [2] = "X", [3] = "cold start" }

local fields = {
    channel = ProtoField.string("ttpc.channel", "Channel"),
    node = ProtoField.uint8("ttpc.node", "Sender"),
    state = ProtoField.bytes("ttpc.state", "C-state of the sender"),
    kind = ProtoField.uint8("ttpc.kind", "Kind", base.DEC, KINDS),
    carried = ProtoField.bytes("ttpc.carried", "C-state in the frame"),
    time = ProtoField.uint16("ttpc.time", "Time"),
    round = ProtoField.uint8("ttpc.round", "Round"),
    slot = ProtoField.uint8("ttpc.slot", "Slot"),
    members = ProtoField.uint24("ttpc.members", "Members", base.HEX),
    member = ProtoField.uint8("ttpc.member", "Member"),
    payload = ProtoField.bytes("ttpc.payload", "Payload"),
    word = ProtoField.uint24("ttpc.word", "Check word", base.HEX),
    computed = ProtoField.uint24("ttpc.word.computed", "Check word of these bytes", base.HEX),
    crc_ok = ProtoField.bool("ttpc.crc_ok", "Check word is right"),
    noise = ProtoField.bool("ttpc.noise", "Noise"),
}
ttpc.fields = fields

local marks = {
    wrong = ProtoExpert.new("ttpc.wrong_word", "The check word is wrong", expert.group.CHECKSUM, expert.severity.ERROR),
    other = ProtoExpert.new("ttpc.other_state", "A right frame of another C-state than the sender's", expert.group.SEQUENCE, expert.severity.ERROR),
    noise = ProtoExpert.new("ttpc.only_noise", "Noise, or frames that collide", expert.group.PROTOCOL, expert.severity.WARN),
    cut = ProtoExpert.new("ttpc.no_frame", "Too short for a frame, or an unknown header", expert.group.MALFORMED, expert.severity.ERROR),
}
ttpc.experts = { marks.wrong, marks.other, marks.noise, marks.cut }

local interface_name = Field.new("frame.interface_name")

-- What a register becomes whose first byte is this one and whose others are zero, eight bits later.
local behind_byte = {}
for first = 0, 255 do
    local register = lshift(first, 16)
    for _ = 1, 8 do
        local leaves = band(register, 0x800000) ~= 0
        register = band(lshift(register, 1), 0xFFFFFF)
        if leaves then register = bxor(register, 0x5D6DCB) end
    end
    behind_byte[first] = register
end

-- The register behind the bytes of a string, from this one on.
local function register_behind(register, bytes)
    for at = 1, #bytes do
        local first = bxor(rshift(register, 16), bytes:byte(at))
        register = bxor(band(lshift(register, 8), 0xFFFFFF), behind_byte[first])
    end
    return register
end

local function members_in(range)
    local set, list = range:uint(), {}
    for node = 0, 8 * range:len() - 1 do
        if band(rshift(set, node), 1) == 1 then list[#list + 1] = node end
    end
    return list
end

local function said_of(state)
    return string.format("time %d round %d members %s", state(0, 2):uint(), state(2, 1):uint(), table.concat(members_in(state(4)), " "))
end

-- A C-state as a branch of the tree, and who sends in its slot.
local function add_state(tree, field, state, info)
    local branch = tree:add(field, state)
    branch:add(fields.time, state(0, 2))
    branch:add(fields.round, state(2, 1))
    branch:add(fields.slot, state(3, 1))
    local members = branch:add(fields.members, state(4))
    for _, node in ipairs(members_in(state(4))) do members:add(fields.member, state(4), node) end
    tree:add(fields.node, state(3, 1))
    info.cols.src = "node " .. state(3, 1):uint()
end

-- Adds what the bytes of a frame say, and returns it in words. `held` is the C-state of the sender, where it is known.
local function add_frame(tree, frame, held, size, info)
    local header = frame(0, 1):uint()
    local size_carried = header == IMPLICIT and 0 or size
    local size_payload = frame:len() - 1 - size_carried - 3
    if KINDS[header] == nil or size_payload < 0 then
        tree:add_proto_expert_info(marks.cut)
        return "no frame"
    end
    tree:add(fields.kind, frame(0, 1))
    local said, carried = { KINDS[header] }, nil
    if size_carried > 0 then
        carried = frame(1, size_carried)
        if held then tree:add(fields.carried, carried) else add_state(tree, fields.carried, carried, info) end
    end
    local state = held or carried
    if state then said[#said + 1] = said_of(state) end
    if size_payload > 0 then
        local payload = frame(1 + size_carried, size_payload)
        tree:add(fields.payload, payload)
        said[#said + 1] = "data " .. tostring(payload:bytes()):lower()
    end
    local range = frame(frame:len() - 3, 3)
    local word = tree:add(fields.word, range)
    if state == nil then
        word:append_text(" (of an implicit C-state, which is not known)")
        return table.concat(said, "  ")
    end

    local register = tonumber(ttpc.prefs.schedule, 16) or 0
    if header == IMPLICIT then register = register_behind(register, held:raw()) end
    register = register_behind(register, frame:raw(0, frame:len() - 3))
    local is_right = register == range:uint()
    word:add(fields.computed, range, register):set_generated()
    word:add(fields.crc_ok, range, is_right):set_generated()
    if not is_right then
        word:add_proto_expert_info(marks.wrong)
        said[#said + 1] = "WRONG CHECK WORD"
    elseif held and carried and held:raw() ~= carried:raw() then
        tree:add_proto_expert_info(marks.other)
        said[#said + 1] = "OTHER C-STATE: " .. said_of(carried)
    end
    return table.concat(said, "  ")
end

function ttpc.dissector(buffer, info, root)
    local size = ttpc.prefs.version == 2 and 7 or 6
    local tree = root:add(ttpc, buffer())
    info.cols.protocol = "TTP/C"
    local name = interface_name()
    if name then
        tree:add(fields.channel, name.value):set_generated()
        info.cols.dst = "channel " .. name.value
    end
    if info.match_uint ~= wtap.USER1 then
        info.cols.info = add_frame(tree, buffer(), nil, size, info)
    elseif buffer:len() < size then
        tree:add_proto_expert_info(marks.cut)
        info.cols.info = "no frame"
    else
        local held = buffer(0, size)
        add_state(tree, fields.state, held, info)
        if buffer:len() > size then
            info.cols.info = add_frame(tree, buffer(size), held, size, info)
        else
            tree:add(fields.noise, true):set_generated()
            tree:add_proto_expert_info(marks.noise)
            info.cols.info = "noise  " .. said_of(held)
        end
    end
end

local links = DissectorTable.get("wtap_encap")
links:add(wtap.USER0, ttpc)
links:add(wtap.USER1, ttpc)
