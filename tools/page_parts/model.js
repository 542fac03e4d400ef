// A run as tools/page_data.py packed it, and what there is at a position. A position is how many events of the page are
// made: 0 is where the page begins, `end` behind its last event, and `last` is one more where an event is stuck.

/** A member of an object, or none: names such as __proto__ are names like any other. */
const get = (object, name) => object && Object.hasOwn(object, name) ? object[name] : undefined;

/** The key in a tagged key's text. */
const keyIn = tagged => tagged.slice(tagged.indexOf("(") + 1, -1);

/** How many of these numbers, which rise, are less than the limit. */
function countBelow(numbers, limit) {
  let low = 0, high = numbers.length;
  while (low < high) {
    const middle = (low + high) >> 1;
    if (numbers[middle] < limit) low = middle + 1;
    else high = middle;
  }
  return low;
}

/** What an operation puts at its place: a map, a list or one of its values. A delete puts none. */
function putBy({ mutation, value }) {
  if (mutation === "delete") return undefined;
  if (value === null || typeof value !== "object" || "n" in value) return "value";
  return Array.isArray(value) ? "list" : "map";
}

/** An operation. `keys` lead to its place, and `parts` has for each key what it goes on into there, a map or a list,
 * and last what it puts. In `made`, `offered` and by replica in `applied` and `received` there are indexes of the
 * page's events; what was before the page begins has -1 or less. By replica, `losses` has the event that took away what
 * the operation had put, and `took` has the operations of which it took something away. */
class Operation {
  constructor(told, first) {
    const { id, number, cursor, mutation, command } = told, path = cursor.slice(0, -1);
    Object.assign(this, told, { maker: makerOf(id), counter: parseInt(id, 10), made: number - 1 - first });
    Object.assign(this, { offered: undefined, applied: new Map(), received: new Map() });
    Object.assign(this, { losses: new Map(), took: new Map() });
    this.keys = [...path.map(keyIn), mutation === "insert" ? id : cursor.at(-1)];
    this.parts = [...path.map(tagged => tagged.startsWith("mapT(") ? "map" : "list"), putBy(told)];
    this.command = data.scripts[this.maker].commands[command];
  }

  /** Whether it depends on the other one. */
  knows(other) {
    return (get(this.deps, names[other.maker]) ?? 0) >= other.counter;
  }

  isApplied(r, at) {
    return this.applied.get(r) < at;
  }

  isReceived(r, at) {
    return this.received.get(r) < at;
  }

  /** The event that took away what it had put there, if one did. */
  lossAt(r, at) {
    const loss = this.losses.get(r);
    return loss && loss.index < at ? loss : undefined;
  }
}

class Run {
  constructor(told, side) {
    const { events, stuck } = told;
    Object.assign(this, told, { told, side, end: events.length, last: events.length + (stuck ? 1 : 0) });
    this.own = names.map((_, r) => [...events.keys()].filter(index => events[index].r === r));
    this.changing = this.own.map(indexes => indexes.filter(index => events[index].o));
    this.trees = this.changing.map((indexes, r) =>
      new Tree(told.states[r].effects, indexes.map(index => events[index].x)));
    this.operations = new Map(told.operations.map(each => [each.id, new Operation(each, told.first)]));
    this.inOrder = [...this.operations.values()].sort((a, b) => a.made - b.made);
    this.noteEarlier(told);
    this.noteEvents();
    this.sets = this.countSets(told);
    this.lost = this.countLost();
    this.texts = names.map(() => ({}));
  }

  noteEarlier({ states, earlier }) {
    for (const [r, { ops, recv, send }] of states.entries()) {
      for (const id of ops) this.operations.get(id).applied.set(r, -1);
      for (const id of recv) this.operations.get(id).received.set(r, -1);
      for (const id of send) this.operations.get(id).offered = -1;
    }
    for (const [r, by, effects] of earlier) this.noteTaken(r, -1, by, effects);
  }

  noteEvents() {
    for (const [index, { r, k, o, n = [], x }] of this.events.entries()) {
      if (o) this.operations.get(o).applied.set(r, index);
      if (k === "send") for (const id of n) this.operations.get(id).offered = index;
      else for (const id of n) this.operations.get(id).received.set(r, index);
      if (x) this.noteTaken(r, index, o, x);
    }
  }

  /** Notes what an event took away at its replica: of which operations something, and of which what they had put. */
  noteTaken(r, index, by, effects) {
    const took = new Set();
    const note = (id, isHolder) => this.operations.get(id).losses.set(r, { index, by, isHolder });
    for (const [where, { lost = [], taken = [] }] of eachEffect(effects)) {
      for (const id of lost) {
        const { keys, parts } = this.operations.get(id);
        took.add(id);
        if (parts.at(-1) !== "value" && `/${keys.join("/")}` === where) note(id, true);
      }
      for (const [id] of taken) {
        took.add(id);
        note(id, lost.includes(id));
      }
    }
    this.operations.get(by).took.set(r, [...took].sort(byIdentifier));
  }

  /** For each replica the set of operations that it has applied, as a number, at first and behind each event that
   * changes it. Two sets are the same where their version vectors are (docs/RULES.md). */
  countSets({ states }) {
    const numbers = new Map();
    const numberOfSet = vector => numbers.get(vector.join()) ?? numbers.set(vector.join(), numbers.size).size - 1;
    return names.map((_, r) => {
      const vector = names.map(() => 0);
      const add = ({ maker, counter }) => { vector[maker] = Math.max(vector[maker], counter); };
      for (const id of states[r].ops) add(this.operations.get(id));
      const sets = [numberOfSet(vector)];
      for (const index of this.changing[r]) {
        add(this.operations.get(this.events[index].o));
        sets.push(numberOfSet(vector));
      }
      return sets;
    });
  }

  /** For each replica the indexes of the events that took away what an operation had put, one for each operation. */
  countLost() {
    return names.map((_, r) =>
      this.inOrder.flatMap(({ losses }) => losses.has(r) ? [losses.get(r).index] : []).sort((a, b) => a - b));
  }

  /** How many of a replica's events changed its document by then, in this page. */
  countChanges(r, at) {
    return countBelow(this.changing[r], at);
  }

  /** The context of the root (trees.js). */
  treeAt(r, at) {
    return this.trees[r].at(this.countChanges(r, at));
  }

  /** The text of a document, which is made once as long as nothing changes it. */
  documentAt(r, at) {
    const count = this.countChanges(r, at);
    if (this.texts[r].count !== count) this.texts[r] = { count, text: textOfDocument(wholeDocument(this, r, at)) };
    return this.texts[r].text;
  }

  countApplied(r, at) {
    return this.told.states[r].ops.length + this.countChanges(r, at);
  }

  lostAt(r, at) {
    return countBelow(this.lost[r], at);
  }

  /** The replicas, those that have applied the same operations together. */
  groupsAt(at) {
    const groups = new Map();
    for (const r of names.keys()) put(groups, this.sets[r][this.countChanges(r, at)], r);
    return [...groups.values()];
  }

  /** The position up to which events are made: that before a stuck event is the end. */
  made(at) {
    return Math.min(at, this.end);
  }

  isStuck(at) {
    return Boolean(this.stuck) && at >= this.last;
  }

  /** The event that leads to a position, where one does. */
  eventAt(at) {
    return at > 0 && at <= this.end ? this.events[at - 1] : undefined;
  }

  /** The same event, where it is one of this replica. */
  ownEventAt(r, at) {
    const event = this.eventAt(at);
    return event?.r === r ? event : undefined;
  }

  /** The replica whose event leads to a position, or is stuck there. */
  actorAt(at) {
    return this.isStuck(at) ? this.stuck.r : this.eventAt(at)?.r;
  }

  /** The name of a position: as in the schedule, those of given events below 0. */
  nameOf(at) {
    return `${this.first + at - this.given}`.replace("-", "\u2212");
  }

  /** The number of the event that leads to a position. Given events have numbers of their own. */
  numberOf(at) {
    const number = this.first + at;
    return number <= this.given ? `g${number}` : `${number - this.given}`;
  }

  /** The same in words. */
  calledAt(at) {
    return this.numberOf(at).replace(/^g?/, start => start ? "given event " : "event ");
  }

  /** How many operations are made by then. */
  countMade(at) {
    const later = this.inOrder.findIndex(each => each.made >= at);
    return later < 0 ? this.inOrder.length : later;
  }

  commandOf(event) {
    return event.c === undefined ? undefined : data.scripts[event.r].commands[event.c];
  }

  /** How many commands of its script a replica has left. */
  leftAt(r, at) {
    const isDone = index => index < at && ["exec", "done"].includes(this.events[index].k);
    return this.told.states[r].left - this.own[r].filter(isDone).length;
  }

  nextCommand(r, at) {
    const { count, commands } = data.scripts[r];
    return commands[count - this.leftAt(r, at)];
  }
}

/** The order of identifiers: by counter, then by replica. */
function byIdentifier(one, other) {
  return parseInt(one, 10) - parseInt(other, 10) || makerOf(one) - makerOf(other);
}

const runs = data.runs.map((told, side) => new Run(told, side));
