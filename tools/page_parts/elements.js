// What all parts of the page are made of: the data, elements, colours, and the small signs for replicas and operations.

const data = JSON.parse(document.getElementById("data").textContent);
const names = data.names;
const numberOf = new Map(names.map((name, r) => [name, r]));

const SVG = "http://www.w3.org/2000/svg";

/** Gives the element attributes and children. `on..` are listeners, `colour` is that of a replica, `style` has members.
 * What is undefined or false is left out. A text becomes a text node, and never markup. */
function fill(element, attributes, children) {
  for (const [name, value] of Object.entries(attributes ?? {})) {
    if (value === undefined || value === false) continue;
    if (name.startsWith("on")) element.addEventListener(name.slice(2), value);
    else if (name === "colour") element.style.setProperty("--c", value);
    else if (name === "style") for (const [part, set] of Object.entries(value)) element.style.setProperty(part, set);
    else element.setAttribute(name, value === true ? "" : value);
  }
  element.append(...shownOf(children));
  return element;
}

/** The children that there are, in one list. */
const shownOf = children => [children].flat(Infinity).filter(child => ![undefined, null, false].includes(child));

const h = (tag, attributes, ...children) => fill(document.createElement(tag), attributes, children);
const s = (tag, attributes, ...children) => fill(document.createElementNS(SVG, tag), attributes, children);

/** Makes these the children of an element. One that is there already isn't taken out: to put it back takes a browser as
 * long as to draw it. */
function keepChildren(element, wanted) {
  const stay = new Set(wanted);
  for (const each of [...element.children]) if (!stay.has(each)) each.remove();
  for (const [index, each] of wanted.entries()) {
    if (element.children[index] !== each) element.insertBefore(each, element.children[index] ?? null);
  }
}

/** A text of docs/, which has code between backquotes. */
const prose = text => text.split("`").map((part, index) => index % 2 ? h("code", {}, part) : part);

const countOf = (number, word) => `${number} ${word}${number === 1 ? "" : "s"}`;

const FEW_HUES = [255, 48, 150, 330, 205, 105, 290, 75];

function colourOf(replica) {
  const areFew = names.length <= FEW_HUES.length;
  const hue = areFew ? FEW_HUES[replica] : (replica * 222.5 + 255) % 360;
  const turn = areFew ? 0 : (replica % 3) * 4 - 6;
  return `light-dark(oklch(${46 + turn}% .145 ${hue}), oklch(${80 + turn}% .12 ${hue}))`;
}
const colours = names.map((_, replica) => colourOf(replica));

const makerOf = id => numberOf.get(id.slice(id.indexOf("@") + 1));

const who = r => h("span", { class: "who", colour: colours[r] }, names[r]);

function whos(replicas, most = 12) {
  const more = replicas.length > most && `and ${replicas.length - most} more`;
  return h("span", { class: "whos" }, replicas.slice(0, most).map(who), more);
}

const chip = (id, isFresh) => h("button", { class: isFresh ? "op fresh" : "op", type: "button", "data-op": id,
  colour: colours[makerOf(id)] }, id);

/** Words, in which an operation stands as { op: ID }. */
const worded = words => words.map(word => typeof word === "string" ? word : chip(word.op));

/** Puts an item into the list that a map has under a name. */
function put(map, name, item) {
  if (map.has(name)) map.get(name).push(item);
  else map.set(name, [item]);
}

/** Operations as chips; where they are many, the first and the last of each maker. */
function chips(ids, most = 8, fresh = undefined) {
  if (!ids.length) return h("span", { class: "none" }, "none");
  const chipOf = id => chip(id, fresh?.has(id));
  if (ids.length <= most) return h("span", { class: "many-ops" }, ids.map(chipOf));
  const byMaker = new Map();
  for (const id of ids) put(byMaker, makerOf(id), id);
  const makers = [...byMaker.values()];
  const shown = makers.slice(0, most).map(list => list.length <= 2 ? list.map(chipOf)
    : [h("span", {}, `${list.length}:`), chipOf(list[0]), "…", chipOf(list.at(-1))]);
  return h("span", { class: "many-ops" }, shown, makers.length > most && `and those of ${makers.length - most} more`);
}

/** The first ones as words, and how many more there are. */
function some(ids, most = 4) {
  const more = ids.length > most ? [` and ${ids.length - most} more`] : [];
  return [...ids.slice(0, most).flatMap((id, index) => [index ? " " : "", { op: id }]), ...more];
}
