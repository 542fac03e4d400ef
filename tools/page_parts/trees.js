// The tree of a replica, made of what its events changed (docs/FORMATS.md, "Effects of an event"). Effects say what was
// there and what is there, so they lead forwards and back.

const newPlace = () => ({ present: new Set(), register: undefined, map: undefined, list: undefined, next: null });

/** What a part of a place is when it is made. */
const NEW_PARTS = {
  register: () => new Map(),
  map: () => new Map(),
  list: () => new Map([["head", { ...newPlace(), next: "tail" }]]),
};

const isEmpty = ({ present, register, map, list, next }) =>
  !present.size && !register && !map && !list && next === null;

/** Makes in a context what the effects tell, or takes it back. A context has the place of each key. */
function change(context, effects, isBack) {
  for (const effect of effects) {
    const { key, gained = [], lost = [], made = [], next, taken = [], written = [] } = effect;
    if (!context.has(key)) context.set(key, newPlace());
    const place = context.get(key), [came, went] = isBack ? [lost, gained] : [gained, lost];
    for (const id of went) place.present.delete(id);
    for (const id of came) place.present.add(id);
    if (!isBack) for (const part of made) place[part] = NEW_PARTS[part]();
    for (const [id] of isBack ? written : taken) place.register.delete(id);
    for (const [id, value] of isBack ? taken : written) place.register.set(id, value);
    if (effect.map) change(place.map, effect.map, isBack);
    if (effect.list) change(place.list, effect.list, isBack);
    if (isBack) for (const part of made) place[part] = undefined;
    if (next) place.next = next[isBack ? 0 : 1];
    if (isEmpty(place)) context.delete(key);
  }
}

/** The tree of a replica at one time: `count` of its changes are made. */
class Tree {
  constructor(first, changes) {
    Object.assign(this, { root: new Map(), count: 0, changes });
    change(this.root, first, false);
  }

  /** The root's context where so many changes are made. It stays the same one, and is changed with the next call. */
  at(count) {
    while (this.count < count) change(this.root, this.changes[this.count++], false);
    while (this.count > count) change(this.root, this.changes[--this.count], true);
    return this.root;
  }
}

/** Each effect with its place, as a text with / between the keys; what is within it stands behind it. */
function eachEffect(effects, above = "") {
  return effects.flatMap(effect => {
    const place = `${above}/${effect.key}`;
    return [[place, effect], ...eachEffect(effect.map ?? [], place), ...eachEffect(effect.list ?? [], place)];
  });
}

/** The order of texts by their code points, which is that of their bytes in UTF-8. */
function byCodePoints(one, other) {
  const [first, second] = [[...one], [...other]];
  const differing = first.findIndex((letter, number) => letter !== second[number]);
  if (differing < 0 || differing >= second.length) return first.length - second.length;
  return first[differing].codePointAt(0) - second[differing].codePointAt(0);
}

/** The names in a map with their keys, in order, also those that aren't shown. */
const namesOf = map => [...map.keys()].map(key => ({ id: JSON.parse(key), key }))
  .sort((one, other) => byCodePoints(one.id, other.id));

/** The elements of a list with their keys, in order, also those that aren't shown. */
function elementsOf(list) {
  const found = [];
  for (let key = list.get("head").next; key !== "tail"; key = list.get(key).next) found.push({ id: key, key });
  return found;
}

/** The place that an operation is about, where a tree has it. */
function placeOf(root, { keys, parts }) {
  return keys.slice(1).reduce((place, key, depth) => place?.[parts[depth]]?.get(key), root.get(keys[0]));
}
