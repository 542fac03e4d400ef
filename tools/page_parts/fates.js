// What became of an operation at a replica, as tools/fate says it at the end. Which event took away what it had put is
// what the effects tell, and so is what is at its place.

function fateOf(run, each, r, at) {
  if (each.made >= at) return { fate: "not made" };
  if (!each.isApplied(r, at)) return each.isReceived(r, at) ? fateReceived(run, each, r, at) : { fate: "not received" };
  if (each.mutation === "delete") return { fate: "applied", took: each.took.get(r) ?? [] };
  const place = placeOf(run.treeAt(r, at), each), loss = each.lossAt(r, at);
  const isHead = each.keys.includes("head");
  if (loss) return fateTaken(run, loss, isHead ? [] : [...place.present]);
  if (isHead) return { fate: "hidden" };
  const depth = each.keys.length - 1, own = each.parts.at(-1);
  const conflict = [...place.present].filter(id => {
    const part = run.operations.get(id).parts[depth];
    return id !== each.id && (part === "value" ? place.register.has(id) : part !== own);
  });
  return conflict.length ? { fate: "visible", conflict: conflict.sort(byIdentifier) } : { fate: "visible" };
}

function fateReceived(run, each, r, at) {
  const waits = run.inOrder.filter(other => each.knows(other) && !other.isApplied(r, at)).map(other => other.id);
  return { fate: "received", waits };
}

/** The fate where an event took away what the operation had put at its place, at which these are present now. The page
 * may begin behind that event. */
function fateTaken(run, { by, index, isHolder }, present) {
  const fate = run.operations.get(by).mutation === "delete" ? "deleted" : "overwritten";
  const kept = isHolder && present.length ? { kept: present.sort(byIdentifier) } : {};
  return { fate, by, at: index + 1, ...kept };
}

/** The words of a fate, in which operations are chips. */
function wordsOf(run, { fate, by, at, took, conflict, kept, waits }) {
  const listed = (begin, ids, without) => ids?.length ? [begin, ...some(ids)] : [without];
  switch (fate) {
    case "visible": return listed("visible, in conflict with ", conflict, "visible");
    case "hidden": return ["kept, and no document shows it"];
    case "applied": return listed("applied, took away ", took, "applied, there was nothing to take away");
    case "received": return listed("received, waits for ", waits, "received, can be applied");
    case "not received": return ["not received"];
    case "not made": return ["not made yet"];
    default: return [`${fate} by `, { op: by }, at > 0 ? ` at ${run.calledAt(at)}` : " before this page begins",
      ...listed("; its place is kept for ", kept, "")];
  }
}

// The colour of a fate's sign, and the order in which they are told.
const SIGNS = {
  visible: "there", hidden: "partly", applied: "there", overwritten: "gone", deleted: "gone",
  received: "away", "not received": "away", "not made": "away",
};
const ORDER_OF_SIGNS = ["there", "partly", "gone", "away"];

const signOf = ({ fate, kept }) => kept ? "partly" : SIGNS[fate];

/** The fates at all replicas as a list of elements, those alike together. */
function shownFates(run, each, at, most) {
  const alike = new Map();
  for (const r of names.keys()) put(alike, JSON.stringify(fateOf(run, each, r, at)), r);
  const fates = [...alike].map(([text, replicas]) => ({ ...JSON.parse(text), replicas }));
  fates.sort((one, other) => ORDER_OF_SIGNS.indexOf(signOf(one)) - ORDER_OF_SIGNS.indexOf(signOf(other)));
  return h("div", { class: "fates" }, fates.map(fate =>
    h("div", {}, whos(fate.replicas, most), h("span", { class: `fate ${signOf(fate)}` }, worded(wordsOf(run, fate))))));
}
