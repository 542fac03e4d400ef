// Documents, as `view` shows them: what is at each place of a replica's tree, with the operations for which it is
// there, and what the last event changed there.

const MOST_NODES = 1500, MOST_DEPTH = 40, LONG_LIST = 400, AROUND = 40, FEWEST_LETTERS = 3, FLAT = 50;

/** Whether something is seen that is there now or was there before: at the time `now`, at the time `before`, or at
 * `both`, where what is there at one of them alone has a mark. */
function seen(time, isNow, was) {
  if (time !== "both") return (time === "now" ? isNow : was) ? { time } : undefined;
  if (isNow && was) return { time };
  if (isNow) return { time: "now", mark: "fresh" };
  return was ? { time: "before", mark: "gone" } : undefined;
}

/** The operations that were present before the effect. */
function presentBefore({ present }, { gained = [], lost = [] }) {
  const ids = new Set([...present, ...lost]);
  for (const id of gained) ids.delete(id);
  return ids;
}

/** The values at a place, by their operations; those that are gone first. */
function valuesAt({ register = new Map() }, { taken = [], written = [] }, time) {
  const fresh = new Set(written.map(([id]) => id));
  const gone = taken.map(([id, value]) => ({ id, value, ...seen(time, false, true) }));
  const now = [...register].sort(([one], [other]) => byIdentifier(one, other))
    .map(([id, value]) => ({ id, value, ...seen(time, true, !fresh.has(id)) }));
  return [...gone, ...now].filter(value => value.time);
}

/** The parts that are in a map or a list. Those that are gone stand where they were. */
function partsOf(run, context, effects, isMap, depth, time) {
  const effectOf = new Map(effects.map(effect => [effect.key, effect]));
  return (isMap ? namesOf(context) : elementsOf(context)).flatMap(({ id, key }) => {
    const place = context.get(key), effect = effectOf.get(key) ?? {}, isNow = place.present.size > 0;
    const found = seen(time, isNow, effect.shown === undefined ? isNow : !effect.shown);
    return found ? [{ id, mark: found.mark, node: nodeOf(run, place, effect, depth, found.time) }] : [];
  });
}

/** What is at a place, so deep in the document: its values, and its map and its list where an operation that is present
 * there goes on into them, or has put them. The effect is what the event that is looked at changed there. */
function nodeOf(run, place, effect, depth, time) {
  const partsBy = ids => new Set([...ids].map(id => run.operations.get(id).parts[depth]));
  const now = partsBy(place.present), was = partsBy(presentBefore(place, effect));
  const values = valuesAt(place, effect, time), node = values.length ? { values } : {};
  for (const part of ["map", "list"]) {
    const found = seen(time, now.has(part), was.has(part));
    if (!found) continue;
    node[part] = partsOf(run, place[part], effect[part] ?? [], part === "map", depth + 1, found.time);
    node[`${part}Mark`] = found.mark;
  }
  return node;
}

/** The document of a replica. With the event that led to this position, what it made is marked as `fresh`, and what it
 * took away stands there with the mark `gone`. */
function wholeDocument(run, r, at, event) {
  const place = run.treeAt(r, at).get("doc"), [effect] = event?.x ?? [];
  return place ? nodeOf(run, place, effect ?? {}, 0, effect ? "both" : "now") : {};
}

// What is drawn.

const textOf = value => value === null || typeof value !== "object" ? JSON.stringify(value)
  : value.n ?? (Array.isArray(value) ? "[]" : "{}");

/** How many values, maps and lists there are now. */
const countNow = node => (node.values ?? []).filter(value => value.mark !== "gone").length +
  ["map", "list"].filter(part => node[part] && node[`${part}Mark`] !== "gone").length;

const isLeaf = node => !node.map && !node.list && node.values?.length === 1;

/** A string of one letter alone. */
function isLetter({ node }) {
  const value = isLeaf(node) && node.values[0].value;
  return typeof value === "string" && [...value].length === 1;
}

/** How wide the node is in a line, or more than `most` where it can't be in one. */
function width(node, most) {
  if (countNow(node) > 1 || node.mapMark === "gone" || node.listMark === "gone") return most + 1;
  let wide = 2;
  for (const { value } of node.values ?? []) wide += textOf(value).length + 1;
  for (const part of [...node.map ?? [], ...node.list ?? []]) {
    if (wide > most) break;
    wide += (node.map ? part.id.length + 4 : 0) + 2 + width(part.node, most);
  }
  return wide;
}

/** How many more nodes may be drawn, so that no document makes the page slow. */
const budget = { left: 0 };

/** The children with a mark, which is also told to those who don't see it. */
function marked(mark, ...children) {
  const told = h("span", { class: "hidden" }, mark === "gone" ? "removed: " : "new: ");
  return mark ? h("span", { class: mark }, told, children) : children;
}

function shownValue({ id, value }, text = textOf(value)) {
  budget.left--;
  return h("span", { class: "val", "data-op": id, colour: id && colours[makerOf(id)] }, text);
}

/** Letters, one after the other, as they would be read. */
function shownLetters(parts) {
  const out = [];
  for (let index = 0; index < parts.length;) {
    const { mark } = parts[index], start = index;
    while (index < parts.length && parts[index].mark === mark) index++;
    out.push(marked(mark, parts.slice(start, index).map(({ node }) => {
      const [value] = node.values;
      return shownValue(value, value.value < " " ? textOf(value.value).slice(1, -1) : value.value);
    })));
  }
  const title = `${countOf(parts.length, "element")}, each a string of one letter`;
  return h("span", { class: "letters", title }, out);
}

/** Whether the part or something in it has a mark. */
function hasMark({ mark, node }) {
  if (mark || node?.mapMark || node?.listMark) return true;
  return [node?.values, node?.map, node?.list].some(inside => inside?.some(hasMark));
}

/** The indexes of what is drawn of a long list or map: its beginning, its end, and what is near a mark. */
function nearMarks(parts) {
  const near = new Set(), end = parts.length - 1;
  const add = index => {
    for (let each = Math.max(0, index - AROUND); each <= Math.min(end, index + AROUND); each++) near.add(each);
  };
  add(0);
  add(end);
  for (const [index, part] of parts.entries()) if (hasMark(part)) add(index);
  return near;
}

/** The parts as they are drawn: one by one, runs of letters as a text, and of a long list what is near a mark. */
function itemsOf(parts, isMap) {
  const near = parts.length > LONG_LIST ? nearMarks(parts) : undefined, items = [];
  const kindAt = index => near && !near.has(index) ? "skipped" : !isMap && isLetter(parts[index]) ? "letters" : "part";
  for (let index = 0; index < parts.length;) {
    const start = index, kind = kindAt(start);
    do index++; while (index < parts.length && kindAt(index) === kind);
    const run = parts.slice(start, index);
    if (kind === "skipped") items.push({ skipped: run.length });
    else if (kind === "letters" && run.length >= FEWEST_LETTERS) items.push({ letters: run });
    else items.push(...run.map(part => ({ part })));
  }
  return items;
}

function shownItem({ part, letters, skipped }, isMap, depth) {
  if (skipped) return h("span", { class: "none" }, ` … ${countOf(skipped, isMap ? "name" : "element")} … `);
  if (letters) return shownLetters(letters);
  const key = isMap && h("span", { class: "key" }, `${JSON.stringify(part.id)}: `);
  return marked(part.mark, key, shown(part.node, depth + 1));
}

function isFlat(parts, isMap) {
  if (isMap) return width({ map: parts }, FLAT) <= FLAT;
  return parts.every(({ node }) => isLeaf(node) || width(node, FLAT / 2) <= FLAT / 2);
}

function shownParts(parts, isMap, depth) {
  const [open, close] = isMap ? "{}" : "[]";
  if (!parts.length) return open + close;
  if (depth >= MOST_DEPTH) return [open, h("span", { class: "none" }, " … deeper "), close];
  const flat = isFlat(parts, isMap), items = itemsOf(parts, isMap), rows = [];
  for (const [index, item] of items.entries()) {
    if (budget.left <= 0) {
      rows.push(h(flat ? "span" : "div", { class: "none" }, ` … ${items.length - index} more`));
      break;
    }
    const out = shownItem(item, isMap, depth), isBlock = item.part && countNow(item.part.node) > 1;
    const comma = index + 1 < items.length && !isBlock && ",";
    rows.push(flat ? [out, comma && ", "] : h("div", {}, out, comma));
  }
  return flat ? [open, rows, close] : [open, h("div", { class: "in" }, rows), close];
}

function shown(node, depth = 0) {
  budget.left--;
  const kinds = (node.values ?? []).map(value => ({ mark: value.mark, made: value.id, out: shownValue(value) }));
  for (const part of ["map", "list"]) {
    if (!node[part]) continue;
    kinds.push({ mark: node[`${part}Mark`], name: part, out: shownParts(node[part], part === "map", depth) });
  }
  const count = countNow(node);
  if (count <= 1) return kinds.map(({ mark, out }, index) => [index > 0 && " ", marked(mark, out)]);
  return h("span", { class: "conflict" }, h("span", { class: "label" }, `conflict: ${count} alternatives`),
    kinds.map(({ mark, name, made, out }) => h("div", {}, made ? chip(made) : h("span", { class: "key" }, name),
      h("span", {}, marked(mark, out)))));
}

function shownDocument(node) {
  budget.left = MOST_NODES;
  const isNothing = !node.values && !node.map && !node.list;
  return isNothing ? h("div", { class: "none" }, "nothing yet") : h("div", { class: "json" }, shown(node));
}

/** The text of a document in which nothing has a mark, as `view` writes it. */
function textOfDocument({ values = [], map, list }) {
  const nameOf = ({ id }) => JSON.stringify(id.startsWith("!") ? `!${id}` : id);
  const parts = [
    list && ["list", `[${list.map(({ node }) => textOfDocument(node)).join(",")}]`],
    map && ["map", `{${map.map(part => `${nameOf(part)}:${textOfDocument(part.node)}`).join(",")}}`],
  ].filter(Boolean);
  if (values.length + parts.length === 1) return parts.length ? parts[0][1] : textOf(values[0].value);
  if (!values.length && !parts.length) return "";
  const pairs = values.map(({ id, value }) => `["${id}",${textOf(value)}]`);
  if (values.length) parts.push(["values", `[${pairs.join(",")}]`]);
  return `{"!conflict":{${parts.map(([name, text]) => `"${name}":${text}`).join(",")}}}`;
}
