#!/usr/bin/env node
// An adapter of Yjs for kit/check --ops: a journal on standard input, the document of each replica on standard output.
// Each replica is a document of Yjs, each operation the update that Yjs makes for it. docs/ENGINES.md says what comes
// of it. Yjs is looked for as Node does; Debian has it in /usr/share/nodejs: NODE_PATH=/usr/share/nodejs.
'use strict'
const Y = require('yjs')

const events = require('fs').readFileSync(0, 'utf8').split('\n').filter(Boolean).map(line => JSON.parse(line))
const names = [...new Set(events.flatMap(event => event.from ? [event.replica, event.from] : [event.replica]))].sort()
const documents = new Map(names.map((name, number) => [name, new Y.Doc({ gc: false })]))
const updates = new Map() // of each operation: what Yjs sends for it
const elements = new Map() // of each element: where Yjs has it; an assignment puts another item there

names.forEach((name, number) => {
  documents.get(name).clientID = number + 1
  documents.get(name).on('update', (update, operation) => operation && updates.get(operation).push(update))
})

// What a key of a cursor names: `doc`, the head of a list, a member by its name, or an element by its identifier.
const read = key => key === 'doc' || key === 'head' ? { kind: key } : key[0] === '"'
  ? { kind: 'member', name: JSON.parse(key) } : { kind: 'element', id: key }
const made = value => Array.isArray(value) ? new Y.Array() : value === null || typeof value !== 'object' ? value
  : 'n' in value ? Number(value.n) : new Y.Map()
const positionAt = (list, index) => Y.createRelativePositionFromTypeIndex(list, index)

// Where an element is in its list here: its index, and whether it is there; the last item that was put there counts.
function place (list, id, document) {
  let found = null
  for (const position of elements.get(id)) {
    const at = Y.createAbsolutePositionFromRelativePosition(position, document)
    if (!at || at.type !== list) continue
    const isThere = Y.compareRelativePositions(positionAt(list, at.index), position)
    if (isThere || !found || !found.isThere) found = { index: at.index, isThere }
  }
  return found || { index: 0, isThere: false }
}

// Puts a value into a list, and keeps where the element is.
function put (list, index, id, value) {
  list.insert(index, [made(value)])
  elements.set(id, [...elements.get(id) || [], positionAt(list, index)])
}

// The map or list to which the keys before the last one lead, or none without an element on the way. What isn't there
// under a name is made, but not to delete in it.
function container (document, keys, isMade) {
  let at = null
  for (const [, tag, key] of keys.map(key => /^(map|list)T\((.*)\)$/s.exec(key))) {
    const [step, type] = [read(key), tag === 'map' ? Y.Map : Y.Array]
    if (step.kind === 'doc') at = tag === 'map' ? document.getMap('map') : document.getArray('list')
    else {
      const there = step.kind === 'member' ? at.get(step.name) : valueOf(at, step.id, document)
      if (!(there instanceof type) && !(step.kind === 'member' && isMade)) return null
      at = there instanceof type ? there : at.set(step.name, new type())
    }
  }
  return at
}

function valueOf (list, id, document) {
  const { index, isThere } = place(list, id, document)
  return isThere ? list.get(index) : null
}

// The whole document: it is two types of Yjs, a map and a list, of which one is shown. It can't be a value.
function clear (document) {
  document.getMap('map').clear()
  document.getArray('list').delete(0, document.getArray('list').length)
}

function make (document, { cursor, id, mutation, value }) {
  const [at, last] = [container(document, cursor.slice(0, -1), mutation !== 'delete'), read(cursor.at(-1))]
  if (last.kind === 'doc') return clear(document)
  if (!at) return // in an element that was deleted or became something else, Yjs has no place for it
  if (last.kind === 'member') return mutation === 'delete' ? at.delete(last.name) : at.set(last.name, made(value))
  const { index, isThere } = last.kind === 'head' ? { index: -1, isThere: true } : place(at, last.id, document)
  if (mutation === 'insert') return put(at, index + isThere, id, value)
  if (!isThere || last.kind === 'head') return
  at.delete(index)
  if (mutation === 'assign') put(at, index, last.id, value)
}

const stuck = events.find(event => event.stuck)
for (const event of events.filter(event => event.op && event !== stuck)) {
  const document = documents.get(event.replica)
  if (event.kind === 'exec') {
    updates.set(event.op.id, [])
    document.transact(() => make(document, event.op), event.op.id)
  } else for (const update of updates.get(event.op.id)) Y.applyUpdate(document, update)
}

const shown = value => value instanceof Y.Array ? value.toArray().map(shown) : !(value instanceof Y.Map) ? value
  : Object.fromEntries([...value.entries()].map(([name, member]) => [name.replace(/^!/, '!!'), shown(member)]))
for (const name of stuck && stuck.given ? [] : names) {
  const document = documents.get(name)
  const [map, list] = [document.getMap('map'), document.getArray('list')]
  const applied = events.filter(event => event.replica === name && event.op && event !== stuck).map(event => event.op)
  const isList = applied.some(op => op.cursor[0] === 'listT(doc)' || op.cursor[0] === 'doc' && Array.isArray(op.value))
  const isThere = applied.some(op => op.mutation !== 'delete')
  console.log(JSON.stringify(isThere ? { doc: shown(isList && !map.size ? list : map), name } : { name }))
}
process.exitCode = stuck ? 3 : 0
