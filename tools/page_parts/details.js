// The details of one run at a position: the event with its operation and its rules, the state of a replica, all
// operations.

const MOST_RULES = 300, MOST_STEPS = 14, MOST_OPERATIONS = 100, FEW_TIMES = 3;

const goTo = (run, at) => at >= 1 && at <= run.end
  ? h("button", { class: "at", type: "button", onclick: () => go(at, run.side) }, run.calledAt(at)) : run.calledAt(at);

const VERBS = { assign: "assigns", insert: "inserts", delete: "deletes" };

function shownMutation({ mutation, value, cursor }) {
  const keys = shownKeys([...cursor.slice(0, -1).map(keyIn), cursor.at(-1)]);
  if (mutation === "delete") return keys;
  return [h("code", {}, textOf(value)), mutation === "insert" ? " behind " : " to ", keys];
}

/** All that there is to say of an operation. */
function operationPanel(run, each, at, isPinned) {
  const isConcurrent = other => other !== each && !each.knows(other) && !other.knows(each);
  const deps = Object.entries(each.deps).map(([name, counter], index) =>
    [index > 0 && ", ", `${name}'s up to `, chip(`${counter}@${name}`)]);
  const close = h("button", { class: "close", type: "button", "aria-label": "Close", onclick: () => choose() }, "✕");
  return h("section", { class: "panel operation", "data-operation": each.id },
    h("h3", {}, "Operation ", chip(each.id), isPinned && close),
    h("dl", { class: "facts" },
      fact("command", false, h("code", {}, each.command)),
      fact("made by", false, who(each.maker), " at ", goTo(run, each.made + 1)),
      fact(VERBS[each.mutation], false, shownMutation(each)),
      fact("depends on", false, deps.length ? deps : "nothing"),
      fact("concurrent with", false, chips(run.inOrder.filter(isConcurrent).map(({ id }) => id), 6))),
    shownFates(run, each, at));
}

function sentenceOf(run, event) {
  const name = who(event.r), isNew = event.n?.length > 0, brought = isNew ? chips(event.n, 6) : "nothing new";
  const each = run.operations.get(event.o);
  switch (event.k) {
    case "exec": return [name, " executes ", h("code", {}, run.commandOf(event)),
      event.o ? [", which makes ", chip(event.o), " and applies it here."] : "."];
    case "send": return [name, " offers ", brought, isNew && " to all that receive from it", "."];
    case "recv": return [name, " receives from ", who(event.f), ": ", brought,
      isNew && ". None of it is applied yet", "."];
    case "take": return [name, " takes from ", who(event.f), ": ", brought, isNew && ". It isn't applied yet", "."];
    case "apply": return [name, " applies ", chip(event.o), ", which ", who(each.maker), " made at ",
      h("span", { class: "whole" }, goTo(run, each.made + 1), ".")];
    default: return [name, " ends its yield."];
  }
}

/** What the event that led to this position took away: of some operations the value alone, of others all that they had
 * put. */
function takenBy(run, r, at) {
  const taken = run.inOrder.filter(({ losses }) => losses.get(r)?.index === at - 1);
  const idsOf = isHolder => taken.filter(({ losses }) => losses.get(r).isHolder === isHolder).map(({ id }) => id);
  const row = (label, ids) => ids.length > 0 && fact(label, false, chips(ids.sort(byIdentifier), 6));
  return h("dl", { class: "facts taken" }, row("overwrites", idsOf(false)), row("takes away", idsOf(true)));
}

/** The rules of an event in runs: one rule that goes down in equal steps is one row where there are many. */
function rulesOf(event) {
  const packed = data.traces[event.t], rows = [];
  let depth = 0, count = event.more ?? 0;
  for (let index = 0; index < packed.length; index += 3) {
    const [number, step, times] = packed.slice(index, index + 3), rule = data.rules[number];
    if (times > FEW_TIMES) rows.push({ rule, depth: depth + step, times, step });
    else for (let turn = 1; turn <= times; turn++) rows.push({ rule, depth: depth + step * turn, times: 1 });
    depth += step * times;
    count += times;
  }
  return { rows, count };
}

function shownRule({ rule, depth, times, step }) {
  const often = times > 1 && h("span", { class: "times" }, `× ${times}${step ? ", each a level deeper" : ""}`);
  const far = depth > MOST_STEPS && h("span", { class: "times" }, `${depth}`);
  const style = { "--depth": Math.min(depth, MOST_STEPS) };
  return h("div", { class: "rule", role: "listitem", "aria-level": depth + 1, style }, far,
    h("button", { type: "button", "data-rule": rule }, rule), often,
    h("span", { class: "words" }, prose(data.texts[rule].words)));
}

function rulesTree(event) {
  const { rows, count } = rulesOf(event), list = h("div", { class: "tree", role: "list" });
  const draw = most => {
    const drawAll = () => draw(Infinity), others = rows.length - most;
    const more = h("button", { class: "more", type: "button", onclick: drawAll }, `show ${others} more`);
    const left = h("p", { class: "none" }, `${event.more} more rules aren't in this page; journal --trace has them`);
    list.replaceChildren(...shownOf([rows.slice(0, most).map(shownRule), others > 0 ? more : event.more && left]));
  };
  draw(MOST_RULES);
  return [h("h3", { class: "part" }, "Rules", h("span", {}, countOf(count, "rule"))), list];
}

function stuckPanel(run) {
  const { stuck, end } = run, next = run.nextCommand(stuck.r, end);
  const senders = stuck.offered?.length ? stuck.offered.map(name => [who(numberOf.get(name)), " "]) : "none";
  return [h("section", { class: "panel stuck" }, h("h3", {}, `${stuck.stuck} ${stuck.cause}`),
    h("p", { class: "sentence" }, who(stuck.r), " can't execute ", h("code", {}, stuck.event),
      ": no rule allows it here. The run ends before it."),
    h("dl", { class: "facts" },
      stuck.key && fact("no node", false, h("code", {}, stuck.key)),
      stuck.missing && fact("missing", false, chips(stuck.missing)),
      stuck.offered && fact("offered by", false, senders),
      next && fact("next command", false, h("code", {}, next)))),
  h("p", { class: "sentence" }, prose(data.refusals[stuck.stuck])),
  (stuck.missing ?? []).slice(0, 3).map(id => operationPanel(run, run.operations.get(id), end, false))];
}

function eventTab(run, at) {
  const event = run.eventAt(at), pinned = run.operations.get(chosen.operation), parts = [];
  if (pinned) parts.push(operationPanel(run, pinned, run.made(at), true));
  if (run.isStuck(at)) return [parts, stuckPanel(run)];
  if (!event) {
    const start = run.first ? `The page begins at position ${run.nameOf(0)}.` : "The start: nothing has been executed.";
    return [parts, h("p", { class: "sentence" }, start)];
  }
  const isGiven = run.first + at <= run.given;
  parts.push(h("p", { class: "sentence" }, isGiven && h("span", { class: "none" }, "given: "), sentenceOf(run, event)));
  parts.push(takenBy(run, event.r, at));
  if (event.o && event.o !== chosen.operation) parts.push(operationPanel(run, run.operations.get(event.o), at, false));
  return [parts, rulesTree(event)];
}

function stateTab(run, at) {
  const r = chosen.replica ?? run.actorAt(at) ?? 0;
  const pick = each => {
    chosen.replica = each;
    drawDetails();
  };
  return h("div", { class: "state" },
    h("div", { class: "pick", role: "group", "aria-label": "Replica" }, names.map((name, each) => h("button", {
      type: "button", colour: colours[each], "aria-pressed": String(each === r), onclick: () => pick(each) }, name))),
    shownState(run, r, run.made(at)));
}

function operationRow(run, each, at, groups) {
  const cells = [chip(each.id), h("code", {}, each.command)];
  if (each.made >= at) return h("tr", { class: "later" }, [...cells, "", "later"].map(cell => h("td", {}, cell)));
  const fates = new Map();
  for (const group of groups) {
    const [r] = group, isWaiting = !each.isApplied(r, at) && each.isReceived(r, at);
    const found = isWaiting ? { fate: "received" } : fateOf(run, each, r, at);
    const key = JSON.stringify([found.conflict ? "in conflict" : found.fate, signOf(found)]);
    fates.set(key, (fates.get(key) ?? 0) + group.length);
  }
  const count = names.filter((_, r) => each.isApplied(r, at)).length;
  const now = [...fates].map(([key, number]) => {
    const [fate, sign] = JSON.parse(key);
    return h("div", { class: `fate ${sign}` }, fates.size > 1 ? `${fate}: ${number}` : fate);
  });
  return h("tr", {}, [...cells, `${count} of ${names.length}`, now].map(cell => h("td", {}, cell)));
}

/** The operations around the position, and all of them where they are asked for. */
function operationsTable(run, at) {
  const groups = run.groupsAt(at), made = run.countMade(at), all = run.inOrder, list = h("div", {});
  const head = h("tr", {}, ["Operation", "Command", "Applied", "Now"].map(text => h("th", { scope: "col" }, text)));
  const draw = most => {
    const begin = Math.max(0, made - most), rows = all.slice(begin, begin + most);
    const more = rows.length < all.length &&
      h("button", { class: "more", type: "button", onclick: () => draw(all.length) }, `show all ${all.length}`);
    list.replaceChildren(...shownOf([h("table", { class: "ops" }, h("thead", {}, head),
      h("tbody", {}, rows.map(each => operationRow(run, each, at, groups)))), more]));
  };
  draw(MOST_OPERATIONS);
  return list;
}

function operationsTab(run, position) {
  const at = run.made(position), pinned = run.operations.get(chosen.operation);
  return [pinned && operationPanel(run, pinned, at, true),
    run.inOrder.length ? operationsTable(run, at) : h("p", { class: "none" }, "No operation is made.")];
}

const TABS = {
  event: ["Event and rules", eventTab], state: ["State", stateTab], operations: ["Operations", operationsTab],
};
