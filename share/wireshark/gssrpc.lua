-- Names the program of gssrpcd for Wireshark and tshark: 0x20004753 (536889171), version 1, and its five procedures.
--
--   tshark -X lua_script:gssrpc.lua -o rpc.dissect_unknown_programs:TRUE -r FILE.pcap
--
-- Lua can't give a program to Wireshark's RPC dissector. So this reads what that dissector found, after it, and adds lines of its own:
-- the procedure by its name, its argument or result where the body can be read, and the texts of SCRAM.
-- docs/WIRESHARK.md says what is seen.

local PROGRAM, VERSION = 0x20004753, 1
local PROCEDURES = { [0] = "NULL", "ECHO", "WHOAMI", "POST", "COUNT" }
-- What a call does with its context (RFC 2203 section 5); DATA isn't said.
local CONTROLS = { "RPCSEC_GSS_INIT", "RPCSEC_GSS_CONTINUE_INIT", "RPCSEC_GSS_DESTROY" }
-- The head of SCRAM's first token: the frame of RFC 2743 section 3.1, a length of one octet, and 1.3.6.1.5.5.14.
local SCRAM = "^\x60.\x06\x06%+\x06\x01\x05\x05\x0e"

local gssrpc = Proto("gssrpc", "The program of gssrpcd")
local shown = {
    program = ProtoField.uint32("gssrpc.program", "Program", base.HEX_DEC),
    version = ProtoField.uint32("gssrpc.version", "Version"),
    procedure = ProtoField.uint32("gssrpc.procedure", "Procedure", base.DEC, PROCEDURES),
    argument = ProtoField.bytes("gssrpc.argument", "Argument"),
    result = ProtoField.bytes("gssrpc.result", "Result"),
    name = ProtoField.string("gssrpc.name", "Name of the caller"),
    posts = ProtoField.uint32("gssrpc.posts", "Posts"),
    scram = ProtoField.string("gssrpc.scram", "SCRAM"),
}
for _, field in pairs(shown) do
    table.insert(gssrpc.fields, field)
end

-- What is read of the other dissectors. Naming a field here makes it be there.
local NAMES = {
    "rpc.xid", "rpc.msgtyp", "rpc.program", "rpc.programversion", "rpc.procedure", "rpc.authgss.procedure", "rpc.authgss.data.length",
    "rpc.authgss.checksum", "data.data", "spnego.mechToken", "spnego.responseToken",
}
local wanted = {}
for _, name in ipairs(NAMES) do
    Field.new(name)
    wanted[name] = true
end

-- The messages of a frame, each with the first field of each name; a message begins with its xid.
local function messages()
    local found = {}
    for _, field in ipairs({ all_field_infos() }) do
        if field.name == "rpc.xid" then
            table.insert(found, {})
        end
        local message = found[#found]
        if message and wanted[field.name] and not message[field.name] then
            message[field.name] = field
        end
    end
    return found
end

-- The argument or the result of a message: its octets where they can be read. An integrity body has its checksum after them.
local function body(message)
    local data = message["data.data"]
    if not data then
        return nil
    end
    local octets = data.range
    if message["rpc.authgss.checksum"] then
        -- the length counts the sequence number too
        local length = message["rpc.authgss.data.length"].value - 4
        return length > 0 and length <= octets:len() and octets:range(0, length) or nil
    end
    return octets
end

-- The octets of an opaque (RFC 4506 section 4.10), where there are any.
local function opaque(octets)
    local length = octets:len() >= 4 and octets:range(0, 4):uint() or 0
    return length > 0 and length <= octets:len() - 4 and octets:range(4, length) or nil
end

local function add_body(tree, procedure, is_reply, octets)
    if is_reply and (procedure == 3 or procedure == 4) then
        tree:add(shown.posts, octets:range(0, 4))
    elseif opaque(octets) then
        local kind = not is_reply and shown.argument or procedure == 2 and shown.name or shown.result
        tree:add(kind, opaque(octets))
    end
end

local function add_scram(tree, token)
    local text = token and token.value:raw():gsub(SCRAM, "") or ""
    if text:find("^[\x20-\x7e]+$") then
        tree:add(shown.scram, text):set_generated()
    end
end

-- What a call does with its context, where it's no call of data.
local function control(message)
    local field = message["rpc.authgss.procedure"]
    return field and CONTROLS[field.value] and " " .. CONTROLS[field.value] or ""
end

local function add_message(root, message)
    local procedure, is_reply = message["rpc.procedure"].value, message["rpc.msgtyp"].value == 1
    local name = PROCEDURES[procedure] or "unknown procedure"
    local tree = root:add(gssrpc, "gssrpc, " .. (is_reply and "reply: " or "call: ") .. name .. control(message))
    tree:add(shown.program, PROGRAM):set_generated()
    tree:add(shown.version, message["rpc.programversion"].value):set_generated()
    tree:add(shown.procedure, procedure):set_generated()
    local octets = body(message)
    if octets and octets:len() >= 4 then
        add_body(tree, procedure, is_reply, octets)
    end
    add_scram(tree, message["spnego.mechToken"])
    add_scram(tree, message["spnego.responseToken"])
end

local function is_own(message)
    local program, version = message["rpc.program"], message["rpc.programversion"]
    return program and program.value == PROGRAM and version and version.value == VERSION and message["rpc.procedure"]
end

function gssrpc.dissector(_, pinfo, root)
    for _, message in ipairs(messages()) do
        if is_own(message) then
            add_message(root, message)
            pinfo.cols.protocol = "gssrpc"
            local named = tostring(pinfo.cols.info):gsub("proc%-(%d+)", function(n) return PROCEDURES[tonumber(n)] end)
            pinfo.cols.info:clear_fence()
            pinfo.cols.info = named .. control(message)
        end
    end
end

register_postdissector(gssrpc)
