// The page: the details' tabs, the controls, keys, the address, and print.

const TURN = 700, MANY_REPLICAS = 16;
const areMany = names.length > MANY_REPLICAS;

// ---- details

const detailsBody = h("div", { class: "body", tabindex: 0, role: "tabpanel", "aria-label": "Details" });
const tabs = h("div", { class: "tabs", role: "tablist" }, Object.entries(TABS).map(([name, [label]]) =>
  h("button", { type: "button", role: "tab", "data-tab": name, onclick: () => pickTab(name) }, label)));
const sides = h("div", { class: "sides", role: "group", "aria-label": "Schedule" }, isDiff && SIDES.map((name, side) =>
  h("button", { type: "button", onclick: () => pickSide(side) }, name)));

function pickTab(name) {
  chosen.tab = name;
  drawDetails();
  detailsBody.scrollTop = 0;
}

function pickSide(side) {
  if (chosen.side !== side) chosen.operation = undefined;
  chosen.side = side;
  drawPosition();
  drawDetails();
  drawLanes();
}

function drawDetails() {
  for (const tab of tabs.children) {
    tab.setAttribute("aria-selected", String(tab.dataset.tab === chosen.tab));
    tab.tabIndex = tab.dataset.tab === chosen.tab ? 0 : -1;
  }
  for (const [side, button] of [...sides.children].entries()) {
    button.setAttribute("aria-pressed", String(side === chosen.side));
  }
  detailsBody.dataset.side = chosen.side;
  const [, draw] = TABS[chosen.tab];
  detailsBody.replaceChildren(...shownOf(draw(theRun(), positionOn(theRun()))));
}

// ---- lanes

const lanes = runs.map(run => new Lanes(run));
const drawLanes = withRows => lanes.forEach(each => each.draw(withRows));

const LEGEND = {
  exec: "executes", let: "binds a variable", send: "offers", recv: "receives", take: "takes one", apply: "applies",
  done: "ends a yield", stuck: "stuck",
};
// Signs that are told where they are in the run.
const SELDOM = new Set(["let", "take", "stuck"]);

function legend(run) {
  const kinds = new Set(run.events.map(kindOf)).add(run.stuck && "stuck");
  const isThere = kind => kinds.has(kind) || !SELDOM.has(kind);
  const sign = kind => s("svg", { viewBox: "-7 -7 14 14" },
    shape(kind, 0, 0, 1, { class: "shape", colour: "var(--muted)" }));
  return h("div", { class: "legend", "aria-hidden": "true" },
    Object.keys(LEGEND).filter(isThere).map(kind => h("span", {}, sign(kind), LEGEND[kind])));
}

// ---- controls

const ICONS = {
  first: "M1 1h2v12H1zM13 1v12L4 7z", back: "M9.6 1.4L11 2.8 6.8 7l4.2 4.2-1.4 1.4L4 7z",
  on: "M4.4 1.4L3 2.8 7.2 7 3 11.2l1.4 1.4L10 7z", last: "M11 1h2v12h-2zM1 1l9 6-9 6z",
  play: "M3 1l9.5 6L3 13z", pause: "M2 1h4v12H2zM8 1h4v12H8z",
};
const icon = name => s("svg", { viewBox: "0 0 14 14", "aria-hidden": "true" }, s("path", { d: ICONS[name] }));
const button = (name, label, press) =>
  h("button", { type: "button", "aria-label": label, title: label, onclick: press, id: name }, icon(name));
const buttons = {
  first: button("first", "To the start (Home)", () => go(0)),
  back: button("back", "Back (left arrow)", () => go(chosen.at - 1)),
  play: button("play", "Play (space)", () => play()),
  on: button("on", "On (right arrow)", () => go(chosen.at + 1)),
  last: button("last", "To the end (End)", () => go(last)),
};
const slider = h("input", { type: "range", min: 0, max: last, step: 1, "aria-label": "Position", id: "slider",
  oninput: () => go(+slider.value) });
const whereabouts = h("output", { class: "position" });
const live = h("div", { class: "hidden", "aria-live": "polite" });
const controls = h("div", { class: "controls", role: "group", "aria-label": "Position" }, Object.values(buttons),
  slider, whereabouts,
  h("button", { type: "button", class: "text", id: "keys", onclick: () => help.showModal() }, "Help"));

const verdictOf = (kind, ...words) => h("p", { class: `verdict ${kind}` }, words);
const linkTo = (at, text) => h("button", { type: "button", onclick: () => go(at) }, text);

/** How the run ends, in a sentence. */
function verdict(run) {
  const groups = run.groupsAt(run.end), end = run.more ? `at ${run.nameOf(run.end)}` : "at the end";
  const { stuck } = run, where = run.calledAt(run.last);
  if (stuck) return verdictOf("bad", linkTo(last, `stuck at ${where}: ${stuck.stuck} ${stuck.cause}`));
  if (names.length === 1) return verdictOf("open", "one replica");
  if (groups.length > 1) return verdictOf("open", `${end} there are ${groups.length} different sets of operations`);
  const isSame = new Set(names.map((_, r) => run.documentAt(r, run.end))).size === 1;
  return isSame ? verdictOf("", `${end} all have the same operations, and the same document`)
    : verdictOf("bad", `${end} all have the same operations, but not the same document`);
}

function verdictOfBoth(run, other) {
  const at = data.parting - first;
  const differ = differing([...names.keys()], [run, other], [run.end, other.end]).map(r => names[r]).join(", ");
  const parting = isParting ? ["the schedules part at ", linkTo(at + 1, (at < run.end ? run : other).calledAt(at + 1))]
    : ["the schedules don't part in this page"];
  return verdictOf("open", parting, run.more + other.more > 0 ? "; where the page ends " : "; at the end ",
    differ ? `the documents of ${differ} differ` : "all documents are the same");
}

const HELP = [
  [["←", "→"], "an event back, an event on (↑ and ↓ too where the events have the focus)"],
  [["Page ↑", "Page ↓"], "ten events"],
  [["Home", "End"], "the start, the end"],
  [["[", "]"], "the last, the next event of this replica"],
  [["space"], "plays, and stops"],
  [["1", "2", "3"], "event and rules, state, operations"],
  ...isDiff ? [[["a", "b"], "details of the first, of the second schedule"]] : [],
  [["Esc"], "lets go of an operation"],
];
const shownKey = (key, index) => [index > 0 && " ", h("kbd", {}, key)];

const help = h("dialog", { "aria-label": "Help" }, h("h2", {}, "Keys"),
  h("dl", {}, HELP.map(([keys, text]) => [h("dt", {}, keys.map(shownKey)), h("dd", {}, text)])),
  h("p", {}, "What became of an operation: put the pointer on it, or go to it by the tab key. ",
    "A click keeps it in sight."),
  h("p", {}, "Elements of one letter each are written one behind the other, on a ground of their own."),
  h("p", {}, `Told by ${data.by}.`),
  h("form", { method: "dialog" }, h("button", {}, "Close")));

let playing;

function play(stop = false) {
  if (playing || stop) {
    clearInterval(playing);
    playing = undefined;
  } else {
    if (chosen.at >= last) go(0);
    playing = setInterval(() => chosen.at < last ? go(chosen.at + 1) : play(true), TURN);
  }
  buttons.play.replaceChildren(icon(playing ? "pause" : "play"));
  buttons.play.setAttribute("aria-label", playing ? "Stop (space)" : "Play (space)");
}

function drawPosition() {
  const run = theRun(), at = positionOn(run), isStuck = run.isStuck(at);
  const name = isStuck ? run.numberOf(at) : run.nameOf(at);
  const isGiven = isStuck && run.first + at <= given, event = run.eventAt(at);
  const whole = isGiven ? "" : ` of ${run.first + run.last + run.more - given}`;
  const said = isStuck ? `stuck: ${run.stuck.stuck} ${run.stuck.cause}` : event ? event.e : "start";
  slider.value = chosen.at;
  slider.setAttribute("aria-valuetext", `${name}${whole}, ${said}`);
  whereabouts.replaceChildren(h("b", {}, name), h("span", {}, `${whole}${isStuck ? ", stuck" : ""}`));
  whereabouts.classList.toggle("bad", isStuck);
  live.textContent = `${name}: ${said}`;
  buttons.first.disabled = buttons.back.disabled = chosen.at === 0;
  buttons.last.disabled = buttons.on.disabled = chosen.at === last;
}

// ---- what is chosen

function go(at, side = chosen.side) {
  chosen.at = Math.max(0, Math.min(last, at));
  chosen.side = side;
  chosen.open.clear();
  if (chosen.tab !== "state") chosen.replica = undefined;
  drawPosition();
  drawDocuments();
  drawDetails();
  for (const each of lanes) each.show();
  drawLanes();
  keepAddress();
}

function choose(id, side = chosen.side) {
  chosen.operation = id;
  chosen.side = side;
  if (id && chosen.tab === "state") chosen.tab = "event";
  drawLanes();
  drawDetails();
  if (id) detailsBody.scrollTop = 0;
  keepAddress();
}

let writing;

/** Writes what is chosen into the address, a moment later, since browsers refuse too many of these. */
function keepAddress() {
  clearTimeout(writing);
  writing = setTimeout(() => {
    const words = [`at=${first + chosen.at - given}`, chosen.side && "side=B"];
    if (chosen.operation) words.push(`op=${chosen.operation}`);
    const text = `#${words.filter(Boolean).join("&")}`;
    if (location.hash !== text) history.replaceState(null, "", text);
  }, 150);
}

function readAddress() {
  const words = new URLSearchParams(location.hash.slice(1)), at = words.get("at"), id = words.get("op");
  if (at !== null && /^-?\d{1,9}$/.test(at)) chosen.at = Math.max(0, Math.min(last, +at + given - first));
  if (isDiff && words.get("side") === "B") chosen.side = 1;
  if (id && theRun().operations.has(id)) chosen.operation = id;
}

// ---- keys

function letGo() {
  hideTip();
  choose(undefined);
}

/** What each key does, where the focus is on this element. */
function keysOf(target) {
  const run = theRun(), own = run.own[run.actorAt(positionOn(run)) ?? 0];
  const before = own.findLast(index => index + 1 < chosen.at), behind = own.find(index => index + 1 > chosen.at);
  const step = count => () => go(chosen.at + count);
  return {
    ArrowLeft: step(-1), ArrowRight: step(1), PageUp: step(-10), PageDown: step(10),
    Home: () => go(0), End: () => go(last),
    "[": () => go(before === undefined ? 0 : before + 1), "]": () => go(behind === undefined ? last : behind + 1),
    1: () => pickTab("event"), 2: () => pickTab("state"), 3: () => pickTab("operations"), Escape: letGo,
    ...isDiff && { a: () => pickSide(0), b: () => pickSide(1) },
    ...target.classList.contains("scroller") && { ArrowUp: step(-1), ArrowDown: step(1) },
    ...!target.closest("button") && { " ": () => play() },
  };
}

function turnTab(step) {
  const order = Object.keys(TABS);
  pickTab(order[(order.indexOf(chosen.tab) + step + order.length) % order.length]);
  tabs.querySelector("[aria-selected=true]").focus();
}

document.addEventListener("keydown", pressed => {
  const { key, target } = pressed, keys = keysOf(target), step = { ArrowRight: 1, ArrowLeft: -1 }[key];
  if (pressed.ctrlKey || pressed.metaKey || pressed.altKey || help.open || !Object.hasOwn(keys, key)) return;
  pressed.preventDefault();
  if (target.role === "tab" && step) turnTab(step);
  else {
    if (playing && key !== " ") play(true);
    keys[key]();
  }
});

// ---- the page

const sign = side => h("span", { class: "side" }, SIDES[side]);
const title = isDiff ? runs.map(({ side, label }) => [sign(side), " ", label, " "]) : data.title;
const counts = [countOf(names.length, "replica"), !isDiff && countOf(runs[0].inOrder.length, "operation"),
  given > 0 && `${given} given`, ...runs.map(run => countOf(run.first + run.last + run.more - given, "event"))];

const lanesSection = (each, side) =>
  h("section", { class: "lanes", "aria-label": isDiff ? `Lanes of ${SIDES[side]}` : "Lanes", "data-side": side },
    isDiff && h("div", { class: "head" }, h("h2", {}, sign(side), " ", runs[side].label)),
    each.names, each.scroller, each.printed, legend(runs[side]));
const documentsSection = (body, side) => h("section", { class: "documents", "data-side": side },
  h("div", { class: "head" }, isDiff && sign(side), documentHeads[side]), body);

document.body.append(
  h("header", {}, h("h1", {}, title, h("small", {}, counts.filter(Boolean).join(" · "))),
    isDiff ? verdictOfBoth(...runs) : verdict(runs[0])),
  controls,
  h("main", { class: `${isDiff ? "diff" : areMany ? "many" : ""}${areMany ? " dense" : ""}` }, lanes.map(lanesSection),
    documentBodies.map(documentsSection),
    h("section", { class: "details" }, h("div", { class: "head" }, sides, tabs), detailsBody)),
  live, tip, help);

if (isDiff) chosen.at = Math.max(0, Math.min(last, data.parting - first + 1));
readAddress();
addEventListener("hashchange", () => {
  readAddress();
  go(chosen.at);
});
addEventListener("beforeprint", () => lanes.forEach(each => each.print()));
new ResizeObserver(() => {
  for (const each of lanes) {
    each.lay();
    each.show();
  }
  drawLanes();
}).observe(lanes[0].scroller);
for (const each of lanes) each.lay();
go(chosen.at);
lanes[chosen.side].scroller.focus({ preventScroll: true });
