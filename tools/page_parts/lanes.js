// The lanes of a run: a column for each replica and a row for each event, with the ways of operations. Rows are drawn
// where they are seen, and all of them for print.

const ROW = 24, LEFT = 52, OVERSCAN = 8, MOST_WAYS = 140, MOST_LIT = 400, MOST_PRINTED = 500, PRINTED_TOGETHER = 12;
// How wide a letter of a name is, and a name that stands upright; how much is left for what a row says, at most.
const FEW_COLUMNS = 8, LETTER = 8, UPRIGHT = 7, WORDS = 240, PART_OF_WORDS = .55;

const yOf = row => row * ROW + ROW / 2;

/** The sign of an event, by its kind. */
function shape(kind, x, y, scale, attributes) {
  const at = (dx, dy) => `${x + dx * scale},${y + dy * scale}`;
  const withClass = word => ({ class: `${attributes.class} ${word}` });
  const circle = (r, more) => s("circle", { cx: x, cy: y, r: r * scale, ...attributes, ...more });
  const polygon = (points, more) =>
    s("polygon", { points: points.map(point => at(...point)).join(" "), ...attributes, ...more });
  const path = (d, more) => s("path", { d, ...attributes, ...more });
  switch (kind) {
    case "exec": return circle(5.2);
    case "let": return circle(4, withClass("open"));
    case "send": return polygon([[-4.8, 4], [4.8, 4], [0, -4.6]]);
    case "recv": return polygon([[-4.8, -4], [4.8, -4], [0, 4.6]], withClass("open"));
    case "take": return polygon([[0, -5], [5, 0], [0, 5], [-5, 0]], withClass("open"));
    case "apply": return polygon([[-4.4, -4.4], [4.4, -4.4], [4.4, 4.4], [-4.4, 4.4]]);
    case "done": return path(`M${at(-4.5, 0)}L${at(4.5, 0)}`);
    default: return path(`M${at(-4, -4)}L${at(4, 4)}M${at(4, -4)}L${at(-4, 4)}`, withClass("bad"));
  }
}

const kindOf = event => event.k === "exec" && !event.o ? "let" : event.k;

function curve(x1, y1, x2, y2) {
  const bend = Math.min(Math.abs(x2 - x1) * .55, 90) * Math.sign(x2 - x1 || 1);
  return `M${x1} ${y1}C${x1 + bend} ${y1} ${x2 - bend} ${y2} ${x2} ${y2}`;
}

/** What an event did, in the words of a row. */
function saidOf(run, event) {
  const brought = (word, from) => event.n.length ? [`${word} `, chips(event.n, 4)] : `${word} nothing new${from}`;
  switch (event.k) {
    case "exec": return [event.o && [chip(event.o), " "], h("code", {}, run.commandOf(event))];
    case "send": return brought("offers", "");
    case "recv": return brought("receives", ` from ${names[event.f]}`);
    case "take": return brought("takes", ` from ${names[event.f]}`);
    case "apply": return ["applies ", chip(event.o), " ", h("code", {}, run.operations.get(event.o).command)];
    default: return "ends its yield";
  }
}

const isQuiet = event => event.k === "done" || event.n?.length === 0;

/** The rows: the start, each event, the stuck one, and lines between them. A row that can be gone to has a position. */
function rowsOf(run) {
  const rows = [{ kind: "start", at: 0 }], begin = run.given - run.first;
  const parting = isParting ? data.parting - run.first : undefined;
  const mark = at => {
    if (at > 0 && at === begin) rows.push({ kind: "mark", text: "position 0, the schedule begins" });
    if (at === parting) rows.push({ kind: "mark", text: "the schedules part here" });
  };
  for (const index of run.events.keys()) {
    mark(index);
    rows.push({ kind: "event", at: index + 1 });
  }
  mark(run.end);
  if (run.stuck) rows.push({ kind: "stuck", at: run.last });
  if (run.more) {
    const why = run.stuck ? "not executed" : "not in this page";
    rows.push({ kind: "mark", text: `${countOf(run.more, "more event")}, ${why}` });
  }
  return rows;
}

/** The ways: an operation leads from its making to where it is received, and from there to where it is applied. What
 * was before the page begins is at its start. */
function waysOf(run) {
  const ways = [];
  for (const each of run.inOrder) {
    const made = Math.max(each.made, -1);
    for (const [r, received] of each.received) {
      const applied = each.applied.get(r), last = Math.max(received, applied ?? -1);
      if (r !== each.maker && last >= 0) ways.push({ each, r, made, received, applied, last });
    }
  }
  return ways;
}

class Lanes {
  constructor(run) {
    Object.assign(this, { run, rows: rowsOf(run), ways: waysOf(run), width: 40, drawn: [0, 0], kept: new Map() });
    this.rowAt = new Map(this.rows.flatMap(({ at }, row) => at === undefined ? [] : [[at, row]]));
    this.names = h("div", { class: "names", "aria-hidden": "true" });
    this.lines = h("div", { role: "presentation", onclick: pressed => this.press(pressed) });
    this.graph = s("svg", { "aria-hidden": "true" });
    this.spacer = h("div", { class: "spacer", role: "presentation", style: { height: `${this.rows.length * ROW}px` } },
      this.lines, this.graph);
    this.scroller = h("div", { class: "scroller", role: "listbox", tabindex: 0, "aria-label": "Events",
      onscroll: () => requestAnimationFrame(() => this.scrolled()) }, this.spacer);
    this.printed = h("div", { class: "printed" });
  }

  press({ target }) {
    const row = target.closest(".row");
    if (row?.dataset.at !== undefined && !target.closest(".op")) go(+row.dataset.at, this.run.side);
  }

  x(r) {
    return LEFT + this.width * (r + .5);
  }

  get scale() {
    return this.width < 5 ? .5 : this.width < 13 ? .62 : this.width < 20 ? .8 : 1;
  }

  /** The row of an event by its index; that of the start for what was before. */
  rowOf(index) {
    return this.rowAt.get(index + 1);
  }

  /** Reckons how wide the columns are, and writes their names. */
  lay() {
    const wide = this.scroller.clientWidth || 560, count = names.length, areFew = count <= FEW_COLUMNS;
    const [least, most, part] = areFew ? [24, 64, .34] : [7.2, 24, .56];
    const room = (wide - LEFT - Math.min(WORDS, wide * PART_OF_WORDS)) / count;
    this.width = Math.min(room, Math.max(least, Math.min(most, wide * part / count)));
    this.kept.clear();
    const longest = Math.max(...names.map(name => name.length)), isTall = this.width < LETTER * (longest + 1);
    this.names.classList.toggle("tall", isTall);
    this.names.classList.toggle("tiny", this.width < 10);
    this.names.style.height = isTall ? `${Math.min(120, 14 + 6.8 * longest)}px` : "28px";
    // Where columns are narrower than their names not all are named, but the one that acts always is.
    const step = isTall ? Math.ceil(UPRIGHT / this.width) : 1;
    this.names.replaceChildren(...names.map((name, r) =>
      h("span", { class: r % step ? "between" : "", colour: colours[r], style: { left: `${this.x(r)}px` } }, name)));
  }

  /** From which row to which one the scroller shows them, with some more above and below. */
  inSight(more) {
    const top = this.scroller.scrollTop, high = this.scroller.clientHeight || 600;
    const first = Math.floor(top / ROW) - more, behind = Math.ceil((top + high) / ROW) + more;
    return [Math.max(0, first), Math.min(this.rows.length, behind)];
  }

  /** Draws again where rows have come into sight that aren't drawn. */
  scrolled() {
    const [from, to] = this.inSight(0), [first, behind] = this.drawn;
    if (from < first || to > behind) this.draw();
  }

  /** Draws the rows that are seen. Without rows it draws the graph alone: the pointer may be on a row. */
  draw(withRows = true) {
    const [from, to] = withRows ? this.inSight(OVERSCAN) : this.drawn;
    this.drawn = [from, to];
    const hadFocus = document.activeElement === this.scroller, at = Math.min(chosen.at, this.run.last);
    if (withRows) keepChildren(this.lines, this.rowsInSight(from, to, at));
    this.graph.replaceChildren(...this.graphBetween(from, to, at));
    this.scroller.setAttribute("aria-activedescendant", `row${this.run.side}-${this.rowAt.get(at)}`);
    const actor = this.run.actorAt(at);
    for (const [r, name] of [...this.names.children].entries()) name.classList.toggle("active", r === actor);
    if (hadFocus) this.scroller.focus({ preventScroll: true });
  }

  /** Brings the row of the position into sight. */
  show() {
    const { scroller } = this, { scrollTop, clientHeight } = scroller;
    const y = yOf(this.rowAt.get(Math.min(chosen.at, this.run.last)));
    if (y - ROW * 3 < scrollTop) scroller.scrollTop = Math.max(0, y - ROW * 4);
    else if (y + ROW * 3 > scrollTop + clientHeight) scroller.scrollTop = y + ROW * 4 - clientHeight;
  }

  get inset() {
    return LEFT + this.width * names.length + 8;
  }

  /** The rows that are seen. One that shows what it did stays the same element. */
  rowsInSight(from, to, at) {
    const { inset, kept } = this;
    const rows = this.rows.slice(from, to).map((row, offset) => {
      const shows = `${from + offset} ${row.at === at ? "now" : row.at > at}`;
      return [shows, kept.get(shows) ?? this.row(row, from + offset, inset, at)];
    });
    this.kept = new Map(rows);
    return rows.map(([, row]) => row);
  }

  rowsBetween(from, to, at) {
    const { inset } = this;
    return this.rows.slice(from, to).map((row, offset) => this.row(row, from + offset, inset, at));
  }

  row({ kind, at: its, text }, number, inset, at) {
    const { run } = this, isNow = its === at, style = { top: `${number * ROW}px`, "padding-left": `${inset}px` };
    if (kind === "mark") return h("div", { class: "row mark", style }, text);
    const event = kind === "event" && run.eventAt(its);
    const classes = ["row", isNow ? "now" : its > at ? "later" : "", kind, event && isQuiet(event) ? "quiet" : ""];
    const said = h("span", { class: "said" }, event ? saidOf(run, event) : kind === "start" ? "start"
      : `stuck: ${run.stuck.event}, ${run.stuck.stuck} ${run.stuck.cause}`);
    for (const each of said.querySelectorAll("button")) each.tabIndex = -1;
    return h("div", { class: classes.filter(Boolean).join(" "), style, id: `row${run.side}-${number}`, role: "option",
      "aria-selected": String(isNow), "aria-setsize": this.rows.length, "aria-posinset": number + 1, "data-at": its,
      title: event ? `${run.numberOf(its)}  ${event.e}  ${run.commandOf(event) ?? ""}` : run.stuck?.event },
    h("span", { class: "nr" }, kind === "start" ? run.nameOf(0) : run.numberOf(its)),
    kind !== "start" && who(run.actorAt(its)), said);
  }

  /** Which ways are strong: those of the operation that is under the pointer or chosen, else those of the event. */
  litWays(at) {
    const id = hoveredOn(this.run) ?? chosenOn(this.run), event = this.run.eventAt(at);
    if (id) return way => way.each.id === id;
    if (!event) return () => false;
    if (event.k === "exec") return way => way.each.id === event.o;
    if (event.k === "apply") return way => way.each.id === event.o && way.r === event.r;
    if (event.k === "send") return way => event.n.includes(way.each.id);
    return way => way.r === event.r && event.n?.includes(way.each.id);
  }

  graphBetween(from, to, at) {
    const parts = this.columns(from, to, at);
    const near = this.ways.filter(way => this.rowOf(way.made) < to && this.rowOf(way.last) >= from);
    const isLit = this.litWays(at), lit = near.filter(isLit).slice(0, MOST_LIT);
    // Where there are too many to tell apart, the strong ones alone are drawn.
    const faint = near.length > MOST_WAYS ? [] : near.filter(way => !isLit(way));
    parts.push(...faint.map(way => this.way(way, at, "")), ...lit.map(way => this.way(way, at, " lit")));
    parts.push(...this.rows.slice(from, to).map((row, offset) => this.sign(row, yOf(from + offset), at)));
    return shownOf(parts);
  }

  /** The line of each replica, in its colour up to the position. */
  columns(from, to, at) {
    const top = Math.max(yOf(from) - ROW, yOf(0)), bottom = Math.min(yOf(to) + ROW, yOf(this.rows.length - 1));
    const now = Math.min(bottom, yOf(this.rowAt.get(at)) + ROW / 2), actor = this.run.actorAt(at);
    return names.map((_, r) => {
      const x = this.x(r), colour = colours[r], acts = r === actor ? " acts" : "";
      return [s("line", { class: "lane", x1: x, x2: x, y1: top, y2: bottom }),
        now > top && s("line", { class: `lane lived${acts}`, colour, x1: x, x2: x, y1: top, y2: now })];
    });
  }

  way({ each, r, made, received, applied }, at, strong) {
    const x = this.x(r), y = yOf(this.rowOf(received)), colour = colours[each.maker], side = each.maker < r ? -1 : 1;
    const path = (index, d, more = "") =>
      s("path", { class: `way${more}${strong}${index >= at ? " later" : ""}`, colour, d });
    const parts = [path(received, curve(this.x(each.maker), yOf(this.rowOf(made)), x, y))];
    if (applied !== undefined) {
      const end = yOf(this.rowOf(applied)), out = x + side * Math.min(this.width * .42, 13);
      parts.push(path(applied, `M${x} ${y}C${out} ${y + 6} ${out} ${end - 6} ${x} ${end}`, " wait"));
    }
    if (strong) {
      const tip = x + side * 5.5 * this.scale, back = tip + side * 7 * this.scale, half = 4 * this.scale;
      const points = `${tip},${y} ${back},${y - half} ${back},${y + half}`;
      parts.push(s("polygon", { class: "tip-of-way", colour, points }));
    }
    return parts;
  }

  sign({ kind, at: its }, y, at) {
    const { run, scale } = this;
    if (kind === "stuck") return shape("stuck", this.x(run.stuck.r), y, scale * 1.2, { class: "shape" });
    if (kind !== "event") return undefined;
    const event = run.eventAt(its), x = this.x(event.r), maker = event.k === "apply" ? makerOf(event.o) : event.r;
    return [its === at && s("circle", { class: "halo", cx: x, cy: y, r: 9.5 * Math.max(scale, .75) }),
      shape(kindOf(event), x, y, scale, { class: its > at ? "shape later" : "shape", colour: colours[maker] })];
  }

  /** Draws all rows in pieces that a printer doesn't part; of very many those around the position. */
  print() {
    const at = Math.min(chosen.at, this.run.last), begin = Math.max(0, this.rowAt.get(at) - MOST_PRINTED / 2);
    const end = Math.min(this.rows.length, begin + MOST_PRINTED), pieces = [];
    for (let from = begin; from < end; from += PRINTED_TOGETHER) {
      const to = Math.min(end, from + PRINTED_TOGETHER);
      const inside = h("div", { class: "spacer", style: { "margin-top": `${-from * ROW}px`, height: `${to * ROW}px` } },
        this.rowsBetween(from, to, at), s("svg", {}, this.graphBetween(from, to, at)));
      pieces.push(h("div", { class: "piece" }, inside));
    }
    this.printed.replaceChildren(...pieces);
  }
}
