-- A plugin of Wireshark: fields to filter by, and for columns, of the comments that macsec-decrypt and macsec-report
-- write, such as macsec_verdict.cause == "replay". It judges nothing: a comment says what its writer found.

local macsec = Proto("macsec_verdict", "MACsec verdict")
local fields = {
  verdict = ProtoField.string("macsec_verdict.verdict", "Verdict"),
  state = ProtoField.string("macsec_verdict.state", "State", base.ASCII, "Not opened, or not protected"),
  cause = ProtoField.string("macsec_verdict.cause", "Cause", base.ASCII, "Why it is not accepted; there can be several"),
  sci = ProtoField.string("macsec_verdict.sci", "SCI"),
  an = ProtoField.uint8("macsec_verdict.an", "AN", base.DEC),
  pn = ProtoField.uint64("macsec_verdict.pn", "Packet number", base.HEX),
  key = ProtoField.string("macsec_verdict.key", "Key"),
  iv = ProtoField.string("macsec_verdict.iv_also_in", "IV used twice, also in"),
  note = ProtoField.string("macsec_verdict.note", "Note"),
}
macsec.fields = fields
local comments = Field.new("frame.comment")

-- What a comment says: a list of fields with their values.
local function read(text)
  local found = {}
  local function add(name, value)
    if value and value ~= "" then found[#found + 1] = { fields[name], value } end
  end
  local head, notes = text:match("^([^;]*)(.*)$")
  local what, sci, an, rest = head:match("^(.-), SCI %(?(%x+)%)?, AN (%d+)(.*)$")
  what, rest = what or head, rest or ""
  local state, verdict = what:match("^(not .-) %((%a+)%)$")
  if not state and what:find("^not ") then state = what end
  add("state", state)
  add("verdict", verdict or not state and what)
  add("sci", sci)
  add("an", tonumber(an))
  local pn, after = rest:match("^, PN 0x(%x+)(.*)$")
  add("pn", pn and UInt64.fromhex(pn))
  local key, causes = (after or rest):match("^(.-), cause (.*)$")
  add("key", (key or after or rest):match("^, (.*)$"))
  for each in (causes or ""):gsub(" and ", "\n"):gmatch("[^\n]+") do add("cause", each) end
  for each in notes:gmatch("; ([^;]+)") do
    local iv = each:match("^IV USED TWICE: also in (.*)$")
    add(iv and "iv" or "note", iv or each)
  end
  return found
end

function macsec.dissector(_, _, tree)
  for _, comment in ipairs({ comments() }) do
    local text = tostring(comment.value):match("^macsec: (.*)$")
    if text then
      local branch = tree:add(macsec, "MACsec verdict: " .. text)
      for _, each in ipairs(read(text)) do branch:add(each[1], each[2]):set_generated() end
    end
  end
end

register_postdissector(macsec)
