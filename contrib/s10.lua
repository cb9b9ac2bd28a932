-- A Wireshark dissector of s10 datagrams, versions 1 and 2: requests and replies.
--
--   tshark -X lua_script:s10.lua -r FILE
--
-- The Info column is the line that `s10 show` prints for the bytes. UDP datagrams that begin with the magic, a version and
-- a kind of it are found at any port. With -d udp.port==PORT,s10 every datagram of a port is read, and refusals are shown.

local s10 = Proto("s10", "S10 item identifiers")

local KINDS = { [1] = "grant", [2] = "draw", [3] = "void", [4] = "query", [5] = "draw-many", [6] = "withdraw" }
local VERSIONS = { [1] = 1, [2] = 1, [3] = 1, [4] = 1, [5] = 2, [6] = 2 }
local LENGTHS = { [1] = 28, [2] = 16, [3] = 25, [4] = 25, [5] = 17, [6] = 16 }
local DONE_LENGTHS = { [1] = 33, [2] = 34, [3] = 26, [4] = 31, [6] = 17 }
local OUTCOMES = {
    [0] = "done", "not-the-post", "bad-grant", "overlap", "no-range", "none-free", "not-yours", "not-issued",
    "already-void", "number-reused", "no-such-range", "closed",
}
local FITS = {
    [1] = { [1] = true, [2] = true, [3] = true, [9] = true },
    [2] = { [4] = true, [5] = true, [9] = true },
    [3] = { [6] = true, [7] = true, [8] = true, [9] = true },
    [4] = { [6] = true, [9] = true },
    [5] = { [4] = true, [5] = true, [9] = true },
    [6] = { [1] = true, [9] = true, [10] = true, [11] = true },
}
local STATUSES = { [0] = "unknown", "never", "issued", "voided" }
local WEIGHTS = { 8, 6, 4, 2, 3, 5, 9, 7 }
local REPLY = 0x80
local LONGEST = 512
local MOST = 16

local f = {
    magic = ProtoField.string("s10.magic", "Magic"),
    version = ProtoField.uint8("s10.version", "Version"),
    kind = ProtoField.uint8("s10.kind", "Kind", base.HEX, KINDS, 0x7f),
    reply = ProtoField.bool("s10.reply", "Reply", 8, { "yes", "no" }, 0x80),
    customer = ProtoField.uint32("s10.customer", "Customer"),
    number = ProtoField.uint32("s10.number", "Request number"),
    holder = ProtoField.uint32("s10.holder", "Holder"),
    service = ProtoField.string("s10.service", "Service indicator"),
    country = ProtoField.string("s10.country", "Country code"),
    count = ProtoField.uint8("s10.count", "Count"),
    first = ProtoField.uint32("s10.first", "First serial"),
    last = ProtoField.uint32("s10.last", "Last serial"),
    id = ProtoField.string("s10.id", "Identifier"),
    outcome = ProtoField.uint8("s10.outcome", "Outcome", base.DEC, OUTCOMES),
    range = ProtoField.uint32("s10.range", "Range"),
    day = ProtoField.uint32("s10.day", "Day"),
    date = ProtoField.string("s10.date", "Date"),
    drawn = ProtoField.string("s10.drawn", "Drawn identifier"),
    status = ProtoField.uint8("s10.status", "Status", base.DEC, STATUSES),
    refusal = ProtoField.string("s10.refusal", "Refusal"),
    request_in = ProtoField.framenum("s10.request_in", "Request in", base.NONE, frametype.REQUEST),
    repeat_of = ProtoField.framenum("s10.repeat_of", "Repeat of", base.NONE, frametype.RETRANS_PREV),
}
s10.fields = f
local refused = ProtoExpert.new("s10.refused", "This is no datagram of s10", expert.group.MALFORMED,
    expert.severity.ERROR)
s10.experts = { refused }

-- Returns the check digit of eight digits, as a character.
local function check_digit(digits)
    local sum = 0
    for at = 1, 8 do sum = sum + WEIGHTS[at] * tonumber(digits:sub(at, at)) end
    local digit = 11 - sum % 11
    if digit == 10 then digit = 0 elseif digit == 11 then digit = 5 end
    return tostring(digit)
end

local function is_letters(text) return text:find("^[A-Z][A-Z]$") ~= nil end

local function is_id(text)
    return text:find("^[A-Z][A-Z]%d%d%d%d%d%d%d%d%d[A-Z][A-Z]$") ~= nil
        and text:sub(11, 11) == check_digit(text:sub(3, 10))
end

local function is_serial(number) return number < 100000000 end

-- Decodes the bytes: kind, whether it is a reply, and its line; or returns nil and the first refusal.
local function read(bytes)
    local function u8(at) return bytes:byte(at + 1) end
    local function u32(at)
        local a, b, c, d = bytes:byte(at + 1, at + 4)
        return ((a * 256 + b) * 256 + c) * 256 + d
    end
    local function text(at, length) return bytes:sub(at + 1, at + length) end
    local length = #bytes

    local is_reply = length >= 4 and u8(3) >= REPLY
    if length < 12 then return nil, "short" end
    if text(0, 2) ~= "S1" then return nil, "magic" end
    if u8(2) ~= 1 and u8(2) ~= 2 then return nil, "version" end
    local kind = is_reply and u8(3) - REPLY or u8(3)
    if VERSIONS[kind] ~= u8(2) then return nil, "kind" end
    local at = LENGTHS[kind]
    if not is_reply and length ~= at then return nil, "length" end
    if is_reply then
        if length <= at then return nil, "length" end
        local done_length = kind == 5 and 22 + 13 * u8(16) or DONE_LENGTHS[kind]
        if length ~= (u8(at) == 0 and done_length or at + 1) then return nil, "length" end
    end

    local words = { is_reply and "reply" or "request", KINDS[kind], "customer", u32(4), "number", u32(8) }
    local function say(...) for _, word in ipairs({ ... }) do words[#words + 1] = word end end
    if kind == 1 then
        if not is_letters(text(16, 2)) then return nil, "field 16" end
        if not is_letters(text(18, 2)) then return nil, "field 18" end
        if not is_serial(u32(20)) then return nil, "field 20" end
        if not is_serial(u32(24)) then return nil, "field 24" end
        say("holder", u32(12), text(16, 2), text(18, 2), ("%08d"):format(u32(20)), ("%08d"):format(u32(24)))
    elseif kind == 2 or kind == 5 then
        if not is_letters(text(12, 2)) then return nil, "field 12" end
        if not is_letters(text(14, 2)) then return nil, "field 14" end
        if kind == 5 and (u8(16) < 1 or u8(16) > MOST) then return nil, "field 16" end
        say(text(12, 2), text(14, 2))
        if kind == 5 then say(u8(16)) end
    elseif kind == 6 then
        say(u32(12))
    else
        if not is_id(text(12, 13)) then return nil, "field 12" end
        say(text(12, 13))
    end
    if is_reply then
        local outcome = u8(at)
        if outcome ~= 0 and not FITS[kind][outcome] then return nil, "outcome" end
        say(OUTCOMES[outcome])
        if outcome == 0 and kind == 1 then
            say("range", u32(29))
        elseif outcome == 0 and kind == 2 then
            if not is_id(text(21, 13)) then return nil, "field 21" end
            say("day", u32(17), text(21, 13))
        elseif outcome == 0 and kind == 5 then
            say("day", u32(18))
            for place = 22, length - 1, 13 do
                if not is_id(text(place, 13)) then return nil, "field " .. place end
                say(text(place, 13))
            end
        elseif outcome == 0 and kind == 4 then
            local status, day = u8(26), u32(27)
            if status > 3 then return nil, "field 26" end
            if status < 2 and day ~= 0 then return nil, "field 27" end
            say(STATUSES[status])
            if status >= 2 then say(day) end
        end
    end
    -- Numbers are printed without a fraction.
    for place, word in ipairs(words) do
        if type(word) == "number" then words[place] = ("%d"):format(word) end
    end
    return { kind = kind, is_reply = is_reply, line = table.concat(words, " ") }
end

local function add_day(tree, range)
    tree:add(f.day, range)
    tree:add(f.date, range, os.date("!%Y-%m-%d", range:uint() * 86400)):set_generated()
end

-- Adds the fields of a decoded datagram.
local function show(tree, range, found)
    local kind, at = found.kind, LENGTHS[found.kind]
    tree:add(f.magic, range(0, 2))
    tree:add(f.version, range(2, 1))
    tree:add(f.reply, range(3, 1))
    tree:add(f.kind, range(3, 1))
    tree:add(f.customer, range(4, 4))
    tree:add(f.number, range(8, 4))
    if kind == 1 then
        tree:add(f.holder, range(12, 4))
        tree:add(f.service, range(16, 2))
        tree:add(f.country, range(18, 2))
        tree:add(f.first, range(20, 4))
        tree:add(f.last, range(24, 4))
    elseif kind == 2 or kind == 5 then
        tree:add(f.service, range(12, 2))
        tree:add(f.country, range(14, 2))
        if kind == 5 then tree:add(f.count, range(16, 1)) end
    elseif kind == 6 then
        tree:add(f.range, range(12, 4))
    else
        tree:add(f.id, range(12, 13))
    end
    if not found.is_reply then return end
    tree:add(f.outcome, range(at, 1))
    if range(at, 1):uint() ~= 0 then return end
    if kind == 1 then
        tree:add(f.range, range(29, 4))
    elseif kind == 2 then
        add_day(tree, range(17, 4))
        tree:add(f.drawn, range(21, 13))
    elseif kind == 5 then
        add_day(tree, range(18, 4))
        for place = 22, range:len() - 1, 13 do tree:add(f.drawn, range(place, 13)) end
    elseif kind == 4 then
        tree:add(f.status, range(26, 1))
        if range(26, 1):uint() >= 2 then add_day(tree, range(27, 4)) end
    end
end

-- The first frame of each request, by server and bytes; its last frame, by client too; for each frame, the one it refers to.
local firsts, lasts, belongs = {}, {}, {}
function s10.init() firsts, lasts, belongs = {}, {}, {} end

local function follow(pinfo, bytes, found)
    local client = tostring(pinfo.src) .. " " .. pinfo.src_port
    local server = tostring(pinfo.dst) .. " " .. pinfo.dst_port
    if found.is_reply then client, server = server, client end
    local asked = server .. " " .. bytes:sub(1, 3) .. string.char(found.kind) .. bytes:sub(5, LENGTHS[found.kind])
    local asked_by = client .. " " .. asked
    if not pinfo.visited then
        if found.is_reply then
            belongs[pinfo.number] = lasts[asked_by]
        else
            belongs[pinfo.number], lasts[asked_by] = firsts[asked], pinfo.number
            firsts[asked] = firsts[asked] or pinfo.number
        end
    end
    return belongs[pinfo.number]
end

function s10.dissector(buffer, pinfo, tree)
    local range = buffer(0, math.min(buffer:len(), LONGEST))
    local bytes = range:raw()
    local found, refusal = read(bytes)
    pinfo.cols.protocol = "S10"
    if not found then
        pinfo.cols.info = "refused " .. refusal
        local top = tree:add(s10, buffer(), "S10, refused " .. refusal)
        top:add(f.refusal, range, refusal)
        top:add_proto_expert_info(refused, "refused " .. refusal)
        return buffer:len()
    end
    pinfo.cols.info = found.line
    local top = tree:add(s10, buffer(), "S10, " .. found.line)
    show(top, range, found)
    local other = follow(pinfo, bytes, found)
    if other then top:add(found.is_reply and f.request_in or f.repeat_of, other):set_generated() end
    return buffer:len()
end

-- Datagrams at any port that begin with the magic, a version and a kind of it.
s10:register_heuristic("udp", function(buffer, pinfo, tree)
    if buffer:len() < 12 or buffer(0, 2):raw() ~= "S1" then return false end
    if VERSIONS[buffer(3, 1):uint() % REPLY] ~= buffer(2, 1):uint() then return false end
    s10.dissector(buffer, pinfo, tree)
    return true
end)

DissectorTable.get("udp.port"):add_for_decode_as(s10)
