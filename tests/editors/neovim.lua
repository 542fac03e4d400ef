-- Drives tools/lsp by the client that is built into Neovim, as editors/neovim sets it up. tests/servers.py runs it, with the
-- repository in ROOT, the program in JSONCRDT and paths of scenarios in SCENARIOS. The last line is `N passed, M failed`.
local root, program = os.getenv("ROOT"), os.getenv("JSONCRDT")
local passed, failed = 0, 0
local seconds = 60

local function say(text) io.stdout:write(text .. "\n") end

local function check(what, holds, seen)
  if holds then
    passed = passed + 1
  else
    failed = failed + 1
    say("FAILED " .. what .. (seen ~= nil and ": " .. vim.inspect(seen) or ""))
  end
end

local function same(what, expected, seen)
  check(what, vim.deep_equal(expected, seen), { expected = expected, seen = seen })
end

local function has(what, part, seen) check(what, type(seen) == "string" and seen:find(part, 1, true) ~= nil, seen) end

local function wait(holds) return vim.wait(seconds * 1000, holds, 5) end

-- ---- buffers

-- What was published of each text last.
local published, shown = {}, {}
local publish = vim.lsp.handlers["textDocument/publishDiagnostics"]
vim.lsp.handlers["textDocument/publishDiagnostics"] = function(fault, result, context, config)
  published[result.uri] = result.diagnostics
  return publish(fault, result, context, config)
end
vim.lsp.handlers["window/showMessage"] = function(_, result) table.insert(shown, result.message) end

local function diagnostics_of(buffer)
  local uri = vim.uri_from_bufnr(buffer)
  check("diagnostics of " .. uri, wait(function() return published[uri] ~= nil end))
  return published[uri] or {}
end

local function open(path)
  vim.cmd("edit " .. vim.fn.fnameescape(path))
  local buffer = vim.api.nvim_get_current_buf()
  diagnostics_of(buffer)
  return buffer
end

local function close(buffer)
  local uri = vim.uri_from_bufnr(buffer)
  published[uri] = nil
  vim.cmd("bwipeout! " .. buffer)
  wait(function() return published[uri] ~= nil end)
  published[uri] = nil
end

local function open_text(text)
  local path = vim.fn.tempname() .. ".jsoncrdt"
  local file = io.open(path, "wb")
  file:write(text)
  file:close()
  return open(path)
end

local function text_of(buffer) return table.concat(vim.api.nvim_buf_get_lines(buffer, 0, -1, false), "\n") .. "\n" end

local function line_of(buffer, number) return vim.api.nvim_buf_get_lines(buffer, number, number + 1, false)[1] end

-- The line, from 0, that has a text for the nth time, and where in it.
local function find(buffer, text, nth)
  for number, line in ipairs(vim.api.nvim_buf_get_lines(buffer, 0, -1, false)) do
    local place = line:find(text, 1, true)
    nth = (nth or 1) - (place and 1 or 0)
    if place and nth == 0 then return number - 1, place - 1 end
  end
end

-- ---- requests

local function request(buffer, method, more)
  local parameters = vim.tbl_extend("force", { textDocument = { uri = vim.uri_from_bufnr(buffer) } }, more or {})
  local answers = vim.lsp.buf_request_sync(buffer, method, parameters, seconds * 1000)
  local _, answer = next(answers or {})
  local result = answer and answer.result
  if result == vim.NIL then result = nil end
  return result
end

local function at(line, character) return { position = { line = line, character = character } } end

local function hovered(buffer, text, nth, further)
  local line, character = find(buffer, text, nth)
  local result = request(buffer, "textDocument/hover", at(line, character + (further or 0)))
  return result and result.contents.value or ""
end

local function labels(buffer, line, character)
  local items = request(buffer, "textDocument/completion", at(line, character)) or {}
  return vim.tbl_map(function(item) return item.label end, items)
end

local function told(words, path)
  local command = vim.tbl_map(vim.fn.shellescape, vim.list_extend({ program }, vim.list_extend(words, { path })))
  return vim.fn.system(table.concat(command, " ") .. " 2>/dev/null"), vim.v.shell_error
end

-- ---- each scenario: diagnostics as the journal ends, formatting as print, a hover on the first event

local function marks_stuck(path, buffer, journal)
  local found, lines = diagnostics_of(buffer), vim.split(journal, "\n", { trimempty = true })
  local last = vim.json.decode(lines[#lines])
  check(path .. " has its stuck event", #found == 1 and found[1].code == last.stuck and found[1].severity == 2, found)
  local range = found[1].range
  same(path .. " marks the event", last.event, line_of(buffer, range.start.line):sub(range.start.character + 1, range["end"].character))
end

local function each_scenario(path)
  local buffer = open(path)
  local journal, status = told({ "journal" }, path)
  if status == 0 then
    same(path .. " has no diagnostic", {}, diagnostics_of(buffer))
  else
    marks_stuck(path, buffer, journal)
  end
  local row = find(buffer, "schedule {")
  local event = row and (line_of(buffer, row + 1) or ""):match("^%s*(.-);$")
  if event then
    local hover = hovered(buffer, event, nil, 1)
    check(path .. " hovers on " .. event, hover:find(event, 1, true) or status ~= 0, hover)
  end
  check(path .. " has symbols", #request(buffer, "textDocument/documentSymbol") >= 1)
  vim.lsp.buf.formatting_sync({}, seconds * 1000)
  same(path .. " is formatted as it is printed", told({ "print" }, path), text_of(buffer))
  close(buffer)
end

-- ---- refused texts: number, and range in units of UTF-16

local refused_texts = {
  { "", 14, 1, 0, 0 }, -- Neovim ends a text with a line end, an empty one too
  { "jsoncrdt 1", 16, 0, 10, 10 },
  { "jsoncrdt 3", 14, 0, 9, 10 },
  { "jsoncrdt 1 replica a {} replica a {}", 15, 0, 32, 33 },
  { "jsoncrdt 1 replica a { # a note", 1, 0, 23, 24 },
  { 'jsoncrdt 1 replica a { doc := "x', 2, 0, 30, 31 },
  { 'jsoncrdt 1 replica a { doc := "\\x41" }', 3, 0, 31, 32 },
  { 'jsoncrdt 1 replica a { doc := "\\ud83d" }', 4, 0, 31, 37 },
  { "jsoncrdt 1 replica a { doc := 01 }", 5, 0, 30, 32 },
  { 'jsoncrdt 1 replica a { doc.get("a") = 1 }', 7, 0, 36, 37 },
  { 'jsoncrdt 1\nreplica a {\n  doc.get("é") = 1;\n}', 7, 2, 15, 16 },
  { 'jsoncrdt 1\nreplica a {\n  doc.get("😀😀") = 1;\n}', 7, 2, 18, 19 },
  { 'jsoncrdt 1\r\nreplica a {\r\n  doc.get("😀") =\r\n1; x\r\n}', 7, 2, 16, 17 },
  { "jsoncrdt 1 replica a { yield", 8, 0, 28, 28 },
  { "jsoncrdt 1 replica a { doc.idx(4294967296).delete }", 9, 0, 31, 41 },
  { "jsoncrdt 1 replica keys {}", 10, 0, 19, 23 },
  { "jsoncrdt 1 replica a { yield } schedule { a.recv(b) }", 18, 0, 49, 50 },
  { "jsoncrdt 1 replica " .. ("n"):rep(256) .. " {}", 6, 0, 19, 275 },
  { "jsoncrdt 1 replica a { doc" .. (".keys"):rep(257) .. " }", 12, 0, 1306, 1307 },
}

local function is_refused(text, number, line, from, to)
  local buffer = open_text(text)
  local found = diagnostics_of(buffer)[1]
  local range = found and found.range
  same(text:sub(1, 60), { number, line, from, to },
    found and { found.code, range.start.line, range.start.character, range["end"].character })
  check("a sentence of " .. number, found and found.severity == 1 and found.message:find("^" .. number .. " %a[%w]*: %u"), found)
  same("no formatting of " .. number, {}, request(buffer, "textDocument/formatting", { options = { tabSize = 2 } }) or {})
  same("no hover of " .. number, nil, request(buffer, "textDocument/hover", at(line, from)))
  close(buffer)
end

-- ---- one by one

local function all_hovers()
  local buffer = open(root .. "/examples/bindings.jsoncrdt")
  local event = hovered(buffer, "p.apply(1, q)", 1, 3)
  has("an event with its operation", 'applies 1@q  doc.get("price") := 2', event)
  has("what it changed", 'doc/"price" gets 1@q 2', event)
  has("its rules", "1    DESCEND\n      2      CHILD-GET", event)
  has("a sentence for each", "- CLEAR-REG: The register loses the values", event)
  has("a replica has its document there", '"values": [["1@p", 1.50], ["1@q", 2]]', hovered(buffer, "p.apply(1, q)"))
  has("a replica has its document at the end", '{"price": 2}', hovered(buffer, "replica q", 1, 8))
  has("a variable has its value", '{"keys": ["name", "price"]}', hovered(buffer, "let names", 1, 5))
  has("a command has its rules", "KEYS1", hovered(buffer, "let names", 1, 1))
  local given = open(root .. "/examples/answer-first.jsoncrdt")
  has("a given event", "given event 5", hovered(given, "q.apply(1, p)", 1, 3))
  has("what a given event changed", 'doc/"question" gets 1@p "when"', hovered(given, "q.apply(1, p)", 1, 3))
  local stuck = open(root .. "/examples/stuck.jsoncrdt")
  local found = diagnostics_of(stuck)[1]
  local start = found.range.start
  local hover = request(stuck, "textDocument/hover", at(start.line, start.character + 3))
  has("a stuck event says why", "26 PastEnd: The list has fewer", hover.contents.value)
  has("what is missing", 'here: `doc.get("l")` has 1 element at `q`', found.message)
  same("and its command", 10, found.relatedInformation[1].location.range.start.line)
end

local function stuck_given()
  local buffer = open_text("jsoncrdt 2 replica a { let x = doc; yield } given { a.exec; a.exec }")
  local found = diagnostics_of(buffer)[1]
  same("a given event that is stuck", { 31, 2, 60, 66 },
    { found.code, found.severity, found.range.start.character, found.range["end"].character })
  has("what that means", "44 GivenStuck: A given event is stuck", found.message)
  has("what came before is there", '{"cursor": ["doc"]}', hovered(buffer, "let x", 1, 4))
end

local function all_definitions()
  local buffer = open(root .. "/examples/bindings.jsoncrdt")
  local function defined(text, nth, further)
    local line, character = find(buffer, text, nth)
    local found = request(buffer, "textDocument/definition", at(line, character + further))
    local range = found and found.range
    return range and line_of(buffer, range.start.line):sub(range.start.character + 1, range["end"].character)
  end
  same("of a variable its let", "price", defined("price :=", 1, 1))
  same("of an apply its command", 'doc.get("price") := 2', defined("p.apply(1, q)", 1, 8))
  same("of an exec its command", 'let price = doc.get("price")', defined("p.exec", 1, 3))
  same("of a name its replica", "q", defined("p.recv(q)", 1, 7))
end

local function all_completions()
  local buffer = open(root .. "/examples/bindings.jsoncrdt")
  local offered = labels(buffer, find(buffer, "p.apply(1, q)"), 2)
  check("what is enabled", vim.tbl_contains(offered, "p.apply(1, q)") and not vim.tbl_contains(offered, "p.exec"), offered)
  same("selectors", { 'get("")', "idx(1)", "keys", "values" }, labels(buffer, 2, ("  let price = doc."):len()))
  same("commands", { "yield", "let", "price", "doc" }, labels(buffer, 3, 2))
  local text = "jsoncrdt 1 replica a { doc := 1; yield } replica b { yield } schedule { a.exec; a.send; b.recv(a); b.a"
  local there = labels(open_text(text), 0, #text)
  check("events in a text that isn't finished", vim.tbl_contains(there, "b.apply(1, a)"), there)
  local behind = "jsoncrdt 1 replica a { doc := 1; yield } schedule { a.send; a"
  same("no events behind one that is stuck", { "a" }, labels(open_text(behind), 0, #behind))
  local given = "jsoncrdt 2 replica a { doc := 1; yield } given { a.exec;  } schedule { }"
  check("events of given", vim.tbl_contains(labels(open_text(given), 0, 57), "a.send"))
  local value = "jsoncrdt 1 replica a { doc := "
  same("values", { "{}", "[]", '""', "true", "false", "null" }, vim.fn.sort(labels(open_text(value), 0, #value), function(a, b)
    local order = { ["{}"] = 1, ["[]"] = 2, ['""'] = 3, ["true"] = 4, ["false"] = 5, ["null"] = 6 }
    return (order[a] or 9) - (order[b] or 9)
  end))
end

-- ---- edits

local function copy_of(name)
  local path = vim.fn.tempname() .. ".jsoncrdt"
  vim.fn.writefile(vim.fn.readfile(root .. "/examples/" .. name .. ".jsoncrdt"), path)
  return path
end

local function titles(actions) return vim.tbl_map(function(action) return action.title end, actions) end

-- Executes a command, and waits until the text is another one and looked at.
local function executed(buffer, command)
  local before = text_of(buffer)
  vim.lsp.buf.execute_command(command)
  check(command.title .. " edits", wait(function() return text_of(buffer) ~= before end))
  vim.cmd("write!")
end

local function actions_at(buffer, row, character)
  local place = { line = row, character = character or 2 }
  local range = { start = place, ["end"] = place }
  return request(buffer, "textDocument/codeAction", { range = range, context = { diagnostics = {} } })
end

local function weaves()
  local path = copy_of("one-value")
  local buffer = open(path)
  local woven = told({ "weave", "--seed", "0" }, path)
  local lens = request(buffer, "textDocument/codeLens")
  same("a lens", "weave a schedule (seed 0)", lens[1].command.title)
  executed(buffer, lens[1].command)
  same("the lens weaves", woven, text_of(buffer))
  same("the next seed", "weave a schedule (seed 1)", request(buffer, "textDocument/codeLens")[1].command.title)
end

local function gives()
  local path = copy_of("one-value")
  local buffer = open(path)
  local before = told({ "view" }, path)
  local actions = actions_at(buffer, find(buffer, "schedule {") + 4)
  same("three actions", { "Replace the schedule by a woven one (seed 0)", "Let the events before this one be given",
    "Write out a sync of p and q" }, titles(actions))
  executed(buffer, actions[2].command)
  same("given events lead to the same documents", before, told({ "view" }, path))
  same("three are given", "given 3", told({ "check" }, path):match("given %d+"))
  local empty = open_text("jsoncrdt 2 replica a { doc := 1; yield } replica b { yield } given { } schedule { a.exec }")
  local fill = actions_at(empty, 0)
  same("fill given", "Fill given by a woven schedule (seed 0)", fill[#fill].title)
  executed(empty, fill[#fill].command)
  has("given is filled", "events 0", told({ "check" }, vim.api.nvim_buf_get_name(empty)))
end

local function syncs()
  local text = "jsoncrdt 1\nreplica p {\n  doc.get(\"a\") := 1;\n  yield;\n}\nreplica q {\n  doc.get(\"b\") := 2;\n  yield;\n}\n"
    .. "schedule {\n  p.exec;\n  q.exec\n}\n"
  local buffer = open_text(text)
  local actions = actions_at(buffer, 11, 8)
  shown = {}
  executed(buffer, actions[#actions].command)
  local expected = text:gsub("q.exec\n", "q.exec;\n  p.send;\n  q.send;\n  p.recv(q);\n  q.recv(p);\n  p.apply(1, q);\n  q.apply(1, p);\n")
  same("a sync is written out", expected, text_of(buffer))
  same("and told", { "same operations same tree" }, shown)
  shown = {}
  vim.lsp.buf.execute_command(actions_at(buffer, 10)[2].command)
  check("where none can be", wait(function() return #shown > 0 end))
  has("it is told why", "stuck 32 NotAtYield p.send", shown[1])
end

local function typed()
  local buffer = open_text("jsoncrdt 1\nreplica a {\n}\n")
  same("nothing at first", {}, diagnostics_of(buffer))
  published[vim.uri_from_bufnr(buffer)] = nil
  vim.api.nvim_buf_set_lines(buffer, 1, 3, false, { "replica a {", "  doc.get(1) := 2", "}" })
  same("a diagnostic while typing", 7, (diagnostics_of(buffer)[1] or {}).code)
  same("what the editor keeps", 1, #vim.diagnostic.get(buffer))
end

local function main()
  vim.o.swapfile, vim.o.hidden = false, true
  vim.opt.runtimepath:append(root .. "/editors/neovim")
  vim.cmd("runtime plugin/jsoncrdt.lua")
  for _, path in ipairs(vim.split(os.getenv("SCENARIOS"), "\n", { trimempty = true })) do each_scenario(path) end
  for _, row in ipairs(refused_texts) do is_refused(unpack(row, 1, 5)) end
  for _, test in ipairs({ all_hovers, stuck_given, all_definitions, all_completions, weaves, gives, syncs, typed }) do test() end
end

local went, fault = xpcall(main, debug.traceback)
check("the tests run to their end", went, fault)
say(("%d passed, %d failed"):format(passed, failed))
vim.cmd(failed == 0 and "qall!" or "cquit")
