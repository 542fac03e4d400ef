// The state of a replica: its tree, which has what is deleted, too, with the presence set of each key and the links of
// lists; its operations; and its script. What the last event added is marked.

function shownPresence({ present }, { gained = [] }) {
  if (!present.size) return h("span", { class: "tag" }, " present by none: it isn't shown");
  return [h("span", { class: "tag" }, " present by "), chips([...present].sort(byIdentifier), 5, new Set(gained))];
}

function shownRegister(register, written) {
  const fresh = new Set(written.map(([id]) => id)), pairs = [...register];
  if (!pairs.length) return h("div", { class: "in" }, h("span", { class: "tag" }, "register, empty"));
  return h("div", { class: "in" }, pairs.sort(([one], [other]) => byIdentifier(one, other)).map(([id, value]) =>
    h("div", { class: fresh.has(id) ? "reg fresh" : "reg" }, chip(id), textOf(value))));
}

/** All that is at a key. The effect is what the last event changed there. */
function stateOfPlace(place, effect, label, depth = 0) {
  budget.left--;
  const parts = [];
  if (place.register) parts.push(shownRegister(place.register, effect.written ?? []));
  if (depth >= MOST_DEPTH && (place.map || place.list)) parts.push(h("span", { class: "none" }, " … deeper"));
  else {
    if (place.map) parts.push(stateOfMap(place.map, effect.map ?? [], depth + 1));
    if (place.list) parts.push(stateOfList(place.list, effect.list ?? [], depth + 1));
  }
  return h("div", { class: place.present.size ? "entry" : "entry dead" }, h("span", { class: "name" }, label),
    shownPresence(place, effect), budget.left > 0 ? parts : h("span", { class: "none" }, " …"));
}

const effectAt = (effects, key) => effects.find(effect => effect.key === key) ?? {};

function stateOfMap(map, effects, depth) {
  const places = namesOf(map);
  return h("div", { class: "in" }, h("div", { class: "tag" }, places.length ? "map" : "map, without entries"),
    places.map(({ key }) => stateOfPlace(map.get(key), effectAt(effects, key), key, depth)));
}

function stateOfList(list, effects, depth) {
  const rows = [h("div", { class: "tag" }, "list")], head = list.get("head");
  if (head.present.size || head.register || head.map || head.list) {
    rows.push(stateOfPlace(head, effectAt(effects, "head"), "head", depth));
  }
  for (const { key } of elementsOf(list)) {
    if (budget.left <= 0) {
      rows.push(h("div", { class: "none" }, "…"));
      break;
    }
    const effect = effectAt(effects, key), isNew = effect.next?.[0] === null;
    const label = [h("span", { class: "tag" }, "→ "), chip(key)];
    rows.push(h("div", { class: isNew && "fresh" }, stateOfPlace(list.get(key), effect, label, depth)));
  }
  if (rows.length === 1) rows.push(h("div", { class: "tag" }, "without elements"));
  return h("div", { class: "in" }, rows);
}

function stateOfTree(root, effects) {
  budget.left = MOST_NODES;
  const place = root.get("doc");
  if (!place) return h("p", { class: "none" }, "no document yet");
  return h("div", { class: "ctx" }, stateOfPlace(place, effects[0] ?? {}, "doc"));
}

/** The key texts of a cursor as they are gone through. */
const shownKeys = keys => keys.map((key, depth) =>
  [depth > 0 && " › ", /^\d+@/.test(key) ? chip(key) : h("code", {}, key)]);

function shownBinding({ cursor, keys, values }) {
  if (cursor) return shownKeys([...cursor.slice(0, -1).map(keyIn), cursor.at(-1)]);
  if (keys) return h("code", {}, JSON.stringify(keys));
  return values.map(([id, value]) => [chip(id), " ", h("code", {}, textOf(value)), " "]);
}

const fact = (label, isFresh, ...shown) => [h("dt", {}, label), h("dd", { class: isFresh && "fresh" }, shown)];

/** The sets of operations in a state: the name, whether an operation is in it, and which an event brought into it. */
const SETS = [
  ["applied (ops)", (each, r, at) => each.isApplied(r, at), ({ o }) => o ? [o] : []],
  ["made (queue)", (each, r, at) => each.maker === r && each.made < at, ({ k, o }) => k === "exec" && o ? [o] : []],
  ["offered (send)", (each, r, at) => each.maker === r && each.offered < at, ({ k, n }) => k === "send" ? n : []],
  ["received (recv)", (each, r, at) => each.isReceived(r, at), ({ k, n = [] }) => k === "send" ? [] : n],
];

const setsAt = (run, r, at) => SETS.map(([, isIn]) =>
  run.inOrder.filter(each => isIn(each, r, at)).map(({ id }) => id).sort(byIdentifier));

/** The variables of a replica, each with what it is bound to. */
function variablesAt(run, r, at) {
  const bound = run.own[r].filter(index => index < at).map(index => run.events[index].v ?? {});
  return new Map([run.told.states[r].vars, ...bound].flatMap(Object.entries));
}

/** Whether the replica did anything since its last yield ended. */
function hasActed(run, r, at) {
  const last = run.own[r].findLast(index => index < at && run.events[index].k !== "exec");
  return last === undefined ? run.told.states[r].acted : run.events[last].k !== "done";
}

function shownScript(run, r, at, { k, v }) {
  const left = run.leftAt(r, at), hasRun = k === "exec" || k === "done";
  return h("dl", { class: "facts" },
    fact("commands left", hasRun, `${left} of ${data.scripts[r].count}`),
    left > 0 && fact("next command", false, h("code", {}, run.nextCommand(r, at) ?? "…")),
    fact("acted", false, hasActed(run, r, at) ? "yes, so its yield can end" : "no"),
    [...variablesAt(run, r, at)].map(([name, binding]) =>
      fact(h("code", {}, name), Object.hasOwn(v ?? {}, name), shownBinding(binding))));
}

/** All of the state at a position. */
function shownState(run, r, at) {
  const event = run.ownEventAt(r, at) ?? {};
  return [
    h("h3", { class: "part" }, "Document, with what is deleted"), stateOfTree(run.treeAt(r, at), event.x ?? []),
    h("h3", { class: "part" }, "Operations"),
    h("dl", { class: "facts" }, setsAt(run, r, at).map((ids, index) => {
      const [label, , brought] = SETS[index];
      return fact(label, false, chips(ids, 8, new Set(brought(event))));
    })),
    h("h3", { class: "part" }, "Script"), shownScript(run, r, at, event),
  ];
}
