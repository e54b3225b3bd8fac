-- Plain PEG text to an LPeg pattern that makes the same nodes: one translator for every grammar.
--
-- Nodes in two forms:
--  * tree: a table for each node with its symbol, start and stop, its children in it, as LPeg's manual makes records (Ct, Cg with names).
--    This is "LPeg with nodes".
--  * flat: the cheapest way to positions and nesting that was found: three numbers a node in one list, -1 - symbol and the start before
--    the body, the end behind it.
--
-- Two things differ between LPeg and document 01:
--  * LPeg's `#e` keeps e's captures; `&e` makes no nodes. So `&e` is `-(-e)`.
--  * LPeg refuses a repeat whose part may take nothing; document 01 ends it there and drops that round. So the part becomes `some(e)`:
--    e where it takes at least a byte, else failure. It is worked out form by form below; a symbol gets a second rule for it, with the
--    same captures; `some` of what cannot be empty is the part itself.
local lpeg = require "lpeg"
local P, R, V, Cc, Cg, Cp, Ct = lpeg.P, lpeg.R, lpeg.V, lpeg.Cc, lpeg.Cg, lpeg.Cp, lpeg.Ct
lpeg.setmaxstack(1000000)

-- ---- reading: a tree of {kind, parts..}

local function reader(text)
    local at = 1
    local r = {}
    local function blanks()
        while true do
            local _, to = text:find("^[ \t\r\n]+", at)
            if not to then _, to = text:find("^#[^\r\n]*", at) end
            if not to then return end
            at = to + 1
        end
    end
    local function takes(pattern)
        blanks()
        local from, to = text:find("^" .. pattern, at)
        if from then
            at = to + 1
            return text:sub(from, to)
        end
    end
    local letters = { n = "\n", r = "\r", t = "\t", ["'"] = "'", ['"'] = '"', ["["] = "[", ["]"] = "]", ["\\"] = "\\" }
    local function character()
        local c = text:sub(at, at)
        at = at + 1
        if c ~= "\\" then return c end
        local known = letters[text:sub(at, at)]
        if known then
            at = at + 1
            return known
        end
        local digits = text:match("^[0-2][0-7][0-7]", at) or text:match("^[0-7][0-7]", at) or assert(text:match("^[0-7]", at), "escape")
        at = at + #digits
        return string.char(tonumber(digits, 8))
    end
    local function until_(stop, each)
        while text:sub(at, at) ~= stop do
            assert(at <= #text, "unfinished")
            each()
        end
        at = at + 1
    end
    local choice
    local function primary()
        if takes("%(") then
            local e = choice()
            assert(takes("%)"), "parenthesis")
            return e
        end
        if takes("%.") then return { "any" } end
        local quote = takes("['\"]")
        if quote then
            local bytes = {}
            until_(quote, function() bytes[#bytes + 1] = character() end)
            return { "literal", table.concat(bytes) }
        end
        if takes("%[") then
            local ranges = {}
            until_("]", function()
                local low = character()
                local high = low
                if text:sub(at, at) == "-" then
                    at = at + 1
                    high = character()
                end
                ranges[#ranges + 1] = low .. high
            end)
            return { "class", ranges }
        end
        local name = takes("[%a_][%w_]*")
        return name and { "symbol", name }
    end
    local function suffixed()
        local e = primary()
        if not e then return nil end
        local s = takes("[?*+]")
        return s and { s, e } or e
    end
    local function prefixed()
        blanks()
        if text:find("^[%a_][%w_]*[ \t\r\n]*<%-", at) then return nil end
        local p = takes("[&!]")
        if not p then return suffixed() end
        return { p, assert(suffixed(), "prefix") }
    end
    local function sequence()
        local e = assert(prefixed(), "empty alternative at " .. at)
        while true do
            local part = prefixed()
            if not part then return e end
            e = { "sequence", e, part }
        end
    end
    function choice()
        local e = sequence()
        while takes("/") do e = { "choice", e, sequence() } end
        return e
    end
    function r.rules()
        local list = {}
        while true do
            local name = takes("[%a_][%w_]*")
            if not name then break end
            assert(takes("<%-"), "arrow")
            list[#list + 1] = { name = name, body = choice() }
        end
        blanks()
        assert(at > #text, "end")
        return list
    end
    return r
end

-- ---- what may take nothing

local function may_be_empty(rules)
    local known, changed = {}, true
    local function empty(e)
        local k = e[1]
        if k == "symbol" then return known[e[2]] or false end
        if k == "sequence" then return empty(e[2]) and empty(e[3]) end
        if k == "choice" then return empty(e[2]) or empty(e[3]) end
        if k == "+" then return empty(e[2]) end
        return k == "&" or k == "!" or k == "?" or k == "*"
    end
    while changed do
        changed = false
        for _, rule in ipairs(rules) do
            if not known[rule.name] and empty(rule.body) then
                known[rule.name], changed = true, true
            end
        end
    end
    return empty
end

-- ---- to LPeg

local SOME = "some "  -- before the name of a symbol's second rule: no name holds a blank

-- The pattern of a plain text; `node` puts the captures of a symbol's number around its body.
local function pattern(text, node)
    local rules = reader(text).rules()
    local empty = may_be_empty(rules)
    local wanted = {}
    local whole, some

    function whole(e)
        local k = e[1]
        if k == "any" then return P(1) end
        if k == "literal" then return P(e[2]) end
        if k == "class" then return R(table.unpack(e[2])) end
        if k == "symbol" then return V(e[2]) end
        if k == "sequence" then return whole(e[2]) * whole(e[3]) end
        if k == "choice" then return whole(e[2]) + whole(e[3]) end
        if k == "&" then return -(-whole(e[2])) end
        if k == "!" then return -whole(e[2]) end
        if k == "?" then return whole(e[2]) ^ -1 end
        if k == "*" then return some(e[2]) ^ 0 end
        -- +: its first round counts even if it takes nothing
        if empty(e[2]) then return whole(e[2]) * some(e[2]) ^ 0 end
        return whole(e[2]) ^ 1
    end

    -- e where it takes at least one byte, else failure
    function some(e)
        local k = e[1]
        if not empty(e) then return whole(e) end
        if k == "symbol" then
            wanted[#wanted + 1] = e[2]
            return V(SOME .. e[2])
        end
        if k == "sequence" then return some(e[2]) * whole(e[3]) + -some(e[2]) * whole(e[2]) * some(e[3]) end
        if k == "choice" then
            if not empty(e[2]) then return whole(e[2]) + some(e[3]) end
            -- where `!.` holds there is no byte to take, and what takes a byte fails
            if e[2][1] == "!" and e[2][2][1] == "any" then return some(e[3]) end
            return some(e[2]) + -whole(e[2]) * some(e[3])
        end
        if k == "?" then return some(e[2]) end
        if k == "*" or k == "+" then return some(e[2]) ^ 1 end
        return P(false)  -- & and !
    end

    local made, body, number = { rules[1].name }, {}, {}
    for i, rule in ipairs(rules) do
        body[rule.name], number[rule.name] = rule.body, i - 1
    end
    for _, rule in ipairs(rules) do made[rule.name] = node(number[rule.name], whole(rule.body)) end
    local i = 1
    while i <= #wanted do
        local name = wanted[i]
        if not made[SOME .. name] then made[SOME .. name] = node(number[name], some(body[name])) end
        i = i + 1
    end
    return P(made)
end

-- ---- the two forms: a pattern, and the words of all nodes in preorder from what it makes: symbol, start, end, depth

local tree, flat = {}, {}

function tree.pattern(text)
    return pattern(text, function(symbol, body) return Ct(Cg(Cc(symbol), "symbol") * Cg(Cp(), "start") * body * Cg(Cp(), "stop")) end)
end

function tree.words(root)
    local out = {}
    local function add(node, depth)
        local n = #out
        out[n + 1], out[n + 2], out[n + 3], out[n + 4] = node.symbol, node.start - 1, node.stop - 1, depth
        for _, child in ipairs(node) do add(child, depth + 1) end
    end
    add(root, 0)
    return out
end

function flat.pattern(text)
    return Ct(pattern(text, function(symbol, body) return Cc(-1 - symbol) * Cp() * body * Cp() end))
end

function flat.words(list)
    local out, open, i = {}, {}, 1
    while i <= #list do
        local v, n = list[i], #out
        if v < 0 then
            out[n + 1], out[n + 2], out[n + 3], out[n + 4] = -1 - v, list[i + 1] - 1, 0, #open
            open[#open + 1] = n + 3
            i = i + 2
        else
            out[table.remove(open)] = v - 1
            i = i + 1
        end
    end
    return out
end

return { tree = tree, flat = flat }
