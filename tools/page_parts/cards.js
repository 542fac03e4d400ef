// What is chosen, and the cards of documents: one for each set of replicas that have applied the same operations.

const MOST_OPEN = 6, FEW_OPERATIONS = 24, MOST_BRIEF = 300;

const isDiff = runs.length > 1, SIDES = ["A", "B"];
const { first, given } = runs[0];
const last = Math.max(...runs.map(run => run.last));

// Whether the page has an event in which its two schedules differ.
const isParting = isDiff && data.parting >= first && data.parting - first < Math.max(...runs.map(({ end }) => end));

// The position, the run whose details are shown, an operation that is kept in sight, the tab, the replica whose state
// is shown where that isn't the event's, and the documents that are open where they are many.
const chosen = { at: last, side: 0, operation: undefined, tab: "event", replica: undefined, open: new Set() };

const theRun = () => runs[chosen.side];

/** The position on a run: where it is shorter than the other one it stays at its end. */
const positionOn = run => Math.min(chosen.at, run.last);

/** So many operations, as chips where they are few. */
function summed(run, count, all, isOne) {
  if (count > FEW_OPERATIONS) return `${count} of ${all} operations`;
  return chips(run.inOrder.slice(0, all).filter(isOne).map(({ id }) => id), 6);
}

/** The replicas whose documents in the two runs differ, each run being at a position. */
function differing(replicas, [one, other], [at, there]) {
  return replicas.filter(r => one.documentAt(r, at) !== other.documentAt(r, there));
}

/** Whether the replicas have the same document in the other run. */
function beside(run, group, at) {
  const other = runs[1 - run.side], differ = differing(group, [run, other], [at, other.made(positionOn(other))]);
  if (!differ.length) return h("span", { class: "same" }, `as in ${SIDES[other.side]}`);
  const where = group.length > 1 && ` at ${differ.map(r => names[r]).join(", ")}`;
  return h("span", { class: "verdict bad" }, `${SIDES[other.side]} differs`, where);
}

function headOfCard(run, group, r, at) {
  const count = new Set(group.map(each => run.documentAt(each, at))).size;
  const show = () => {
    Object.assign(chosen, { side: run.side, replica: r });
    pickTab("state");
    detailsBody.scrollIntoView({ block: "nearest" });
  };
  return h("div", { class: "top" }, group.map(who),
    group.length > 1 && (count === 1 ? h("span", { class: "same" }, "same operations, same document")
      : h("span", { class: "verdict bad" }, "same operations, different documents")),
    isDiff && beside(run, group, at),
    h("button", { class: "keeps", type: "button", "aria-label": `State of ${names[r]}`, onclick: show }, "state"));
}

/** The document of an open card, and the operations that lost something in it. */
function openDocument(run, r, at, all) {
  const lost = run.lostAt(r, at), isLost = each => each.lossAt(r, at);
  const event = run.isStuck(positionOn(run)) ? undefined : run.ownEventAt(r, at);
  return [lost > 0 && h("div", { class: "note" }, "deleted or overwritten: ", summed(run, lost, all, isLost)),
    h("div", { class: "doc" }, shownDocument(wholeDocument(run, r, at, event)))];
}

function closedDocument(run, r, at, key) {
  const open = () => {
    chosen.open.add(key);
    drawDocuments();
  };
  return h("div", { class: "brief" }, h("button", { class: "more", type: "button", onclick: open }, "show"), " ",
    run.documentAt(r, at).slice(0, MOST_BRIEF) || "nothing yet");
}

/** Draws a card, or gives the one that is there where that shows the same. */
function card(run, group, at, isFirst) {
  const position = positionOn(run), actor = run.actorAt(position), isActive = group.includes(actor);
  const r = isActive ? actor : group[0], key = `${run.side} ${group[0]}`, isOpen = isFirst || chosen.open.has(key);
  const all = run.countMade(at), lacks = all - run.countApplied(r, at);
  const label = `Document of ${group.map(each => names[each]).join(", ")}`;
  const shows = JSON.stringify([group, run.countChanges(r, at), lacks && all, isOpen, isActive && position,
    isDiff && chosen.at]);
  const isLacking = each => !each.isApplied(r, at);
  return drawnCards[run.side].get(shows) ?? h("article", { class: isActive ? "card active" : "card",
    "aria-label": label, "data-shows": shows },
  headOfCard(run, group, r, at),
  lacks > 0 && h("div", { class: "note" }, "not applied: ", summed(run, lacks, all, isLacking)),
  isOpen ? openDocument(run, r, at, all) : closedDocument(run, r, at, key));
}

// The cards that are there, by what they show.
const drawnCards = runs.map(() => new Map());

const documentBodies = runs.map(({ side }) =>
  h("div", { class: "body", tabindex: 0, "aria-label": "Documents", "data-side": side }));
const documentHeads = runs.map(() => h("h2", {}));

function drawDocuments() {
  for (const run of runs) {
    const position = positionOn(run), at = run.made(position), actor = run.actorAt(position);
    const groups = run.groupsAt(at).sort((one, other) => other.includes(actor) - one.includes(actor));
    documentHeads[run.side].textContent = `Documents at ${run.nameOf(at)}`;
    const cards = groups.map((group, index) => card(run, group, at, index === 0 || groups.length <= MOST_OPEN));
    keepChildren(documentBodies[run.side], cards);
    drawnCards[run.side] = new Map(cards.map(each => [each.dataset.shows, each]));
  }
}
