-- Puts the verdicts of sqdiff on the packets of an open capture, in Wireshark and tshark.
--
--     sqdiff --csv -o trace.csv trace.pcapng
--     SQDIFF=trace.csv wireshark -X lua_script:tools/wireshark/squeues.lua trace.pcapng
--     SQDIFF=trace.csv tshark -X lua_script:tools/wireshark/squeues.lua -r trace.pcapng -Y 'squeues.verdict == "MUST"'
--
-- Each frame that sqdiff names gets a tree with the verdict, the rule's name and section, whose it is, and what was captured; a MUST is
-- an error of the expert information, a SHOULD a warning. A frame whose ends or time aren't those of the line is left alone, and said to be of
-- another capture. The file may also be named in the preferences of the protocol "squeues". Nothing here is proved, and nothing judges: it
-- shows what stands in the file.

local squeues = Proto("squeues", "Verdicts of sqdiff")
local fields = {
    verdict = ProtoField.string("squeues.verdict", "Verdict"),
    kind = ProtoField.string("squeues.kind", "Kind"),
    section = ProtoField.string("squeues.section", "Section"),
    side = ProtoField.string("squeues.side", "Side"),
    captured = ProtoField.string("squeues.captured", "Captured"),
    sqrun = ProtoField.string("squeues.sqrun", "Reference (sqrun)"),
    allowed = ProtoField.string("squeues.allowed", "Allowed"),
    why = ProtoField.string("squeues.why", "Unjudged, since"),
}
local order = { "verdict", "kind", "section", "side", "captured", "sqrun", "allowed", "why" }
local severities = {
    MUST = ProtoExpert.new("squeues.must", "A MUST is broken", expert.group.PROTOCOL, expert.severity.ERROR),
    SHOULD = ProtoExpert.new("squeues.should", "A SHOULD isn't followed", expert.group.PROTOCOL, expert.severity.WARN),
    service = ProtoExpert.new("squeues.service", "The service differs", expert.group.PROTOCOL, expert.severity.NOTE),
    unjudged = ProtoExpert.new("squeues.unjudged", "The capture can't tell", expert.group.PROTOCOL, expert.severity.CHAT),
    choice = ProtoExpert.new("squeues.choice", "The standard leaves it free", expert.group.PROTOCOL, expert.severity.CHAT),
}
squeues.fields = fields
squeues.experts = severities
squeues.prefs.file = Pref.string("Verdicts", "", "What `sqdiff --csv -o FILE` wrote; without it the environment's SQDIFF")

local verdicts = {}         -- by the number of a frame its lines, each with the time that the frame has there, in microseconds
local source = ""           -- their file
local said = {}             -- what was complained of already

local function complain(words)
    if not said[words] then report_failure("squeues: " .. words) end
    said[words] = true
end

-- The fields of one line of CSV (RFC 4180), and the rest of the text behind it.
local function record(text, at)
    local out = {}
    while true do
        local value
        if text:sub(at, at) == '"' then
            local parts, stop = {}, at + 1
            while true do
                local quote = text:find('"', stop, true)
                if not quote then return nil end
                parts[#parts + 1] = text:sub(stop, quote - 1)
                if text:sub(quote + 1, quote + 1) ~= '"' then
                    at = quote + 1
                    break
                end
                parts[#parts + 1] = '"'
                stop = quote + 2
            end
            value = table.concat(parts)
        else
            local stop = text:find("[,\r\n]", at) or #text + 1
            value, at = text:sub(at, stop - 1), stop
        end
        out[#out + 1] = value
        local sign = text:sub(at, at)
        if sign ~= "," then
            local behind = text:match("^\r?\n()", at)
            return out, behind or at
        end
        at = at + 1
    end
end

-- Whether a line of names has all that is looked for.
local function is_named(names)
    local there = {}
    for _, name in ipairs(names or {}) do there[name] = true end
    return there.ends and there.frames and there.frames_at_us and there.verdict and there.kind and there.captured and there.section
end

-- The numbers of a field, which blanks part.
local function numbers(text)
    local out = {}
    for number in (text or ""):gmatch("%d+") do out[#out + 1] = tonumber(number) end
    return out
end

-- Reads the file's lines, by the names of its first.
local function read(name)
    verdicts, source = {}, name
    local file = name ~= "" and io.open(name, "rb")
    if not file then
        if name ~= "" then complain(name .. " can't be read") end
        return
    end
    local text = file:read("*a")
    file:close()
    local names, at = record(text, 1)
    if not is_named(names) then
        complain(name .. " isn't what `sqdiff --csv` writes")
        return
    end
    while at <= #text do
        local values
        values, at = record(text, at)
        if not values or not at then
            complain(name .. " ends inside a line")
            return
        end
        local line = {}
        for n, field in ipairs(names) do line[field] = values[n] or "" end
        local times = numbers(line.frames_at_us)
        for n, frame in ipairs(numbers(line.frames)) do
            verdicts[frame] = verdicts[frame] or {}
            table.insert(verdicts[frame], { line = line, at = times[n] or -1 })
        end
    end
end

-- Whether the packet goes between the two ends of a line, as "10.0.0.1:4000 10.0.0.2:7" or "[fd00::1]:4000 [fd00::2]:7".
local function is_of(line, pinfo)
    local one = tostring(pinfo.src) .. " " .. pinfo.src_port
    local other = tostring(pinfo.dst) .. " " .. pinfo.dst_port
    local first, second = (line.ends or ""):match("^(%S+) (%S+)$")
    if not first then return false end
    local plain = function(text) return (text:gsub("^%[(.*)%]:(%d+)$", "%1 %2"):gsub("^([%d.]+):(%d+)$", "%1 %2")) end
    first, second = plain(first), plain(second)
    return first == one and second == other or first == other and second == one
end

-- Whether the packet has this time. (Wireshark tells seconds, to some tenths of a microsecond.)
local function is_then(at, pinfo)
    return math.abs(pinfo.abs_ts * 1e6 - at) < 2
end

function squeues.init()
    read(squeues.prefs.file ~= "" and squeues.prefs.file or os.getenv("SQDIFF") or "")
end

function squeues.dissector(buffer, pinfo, tree)
    for _, named in ipairs(verdicts[pinfo.number] or {}) do
        local line = named.line
        if not (is_of(line, pinfo) and is_then(named.at, pinfo)) then
            complain(source .. " is of another capture: what it says of some frames isn't shown")
        else
            local branch = tree:add(squeues, buffer(0, 0), "sqdiff: " .. line.verdict .. ": " .. line.kind .. " [" .. line.section .. "]")
            for _, name in ipairs(order) do
                if (line[name] or "") ~= "" then branch:add(fields[name], buffer(0, 0), line[name]):set_generated() end
            end
            branch:set_generated()
            if severities[line.verdict] then branch:add_proto_expert_info(severities[line.verdict], line.kind .. ": " .. line.captured) end
        end
    end
end

register_postdissector(squeues)
