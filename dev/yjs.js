// Executes a scenario of dev/bench whose commands insert into one list, by Yjs in place of these rules: an update for
// each operation, applied one by one. Prints each replica's list. It needs Debian's node-yjs.
//
//   node dev/yjs.js FILE

const fs = require("fs");
const Y = require("yjs");

const text = fs.readFileSync(process.argv[2], "utf8");
const replicas = new Map();
for (const [, name, script] of text.matchAll(/replica (\w+) \{([^}]*)\}/g)) {
  const doc = new Y.Doc();
  doc.clientID = replicas.size + 1;
  const commands = script.split(";").map((command) => command.trim()).filter((command) => command && command !== "yield");
  const replica = { doc, commands, list: doc.getArray("l"), next: 0, made: [] };
  doc.on("update", (update, origin) => origin === "apply" || replica.made.push(update));
  replicas.set(name, replica);
}
for (const [, name, event, counter, from] of text.slice(text.indexOf("schedule {")).matchAll(
  /(\w+)\.(exec|apply)(?:\((\d+), (\w+)\))?/g)) {
  const replica = replicas.get(name);
  if (event === "exec") {
    const insert = replica.commands[replica.next++].match(/idx\((\d+)\)\.insertAfter\((\d+)\)/);
    // The command that makes the list has no update.
    if (insert) replica.list.insert(Number(insert[1]), [Number(insert[2])]);
  } else if (counter !== "1") {
    Y.applyUpdate(replica.doc, replicas.get(from).made[Number(counter) - 2], "apply");
  }
}
for (const { list } of replicas.values()) console.log(JSON.stringify(list.toJSON()));
