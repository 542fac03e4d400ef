"use strict";
// Starts tools/dap for the debugger, and tools/lsp for scenarios by the library vscode-languageclient, which README.md
// says how to get.

const path = require("path");
const vscode = require("vscode");

const tools = path.join(__dirname, "..", "..", "tools");
const server = { command: path.join(tools, "lsp") };
let client;

// The library, or nothing where it isn't installed.
function library() {
  try {
    return require("vscode-languageclient/node");
  } catch (fault) {
    vscode.window.showInformationMessage(
      `jsoncrdt: there is no language server before you run "npm install --omit=dev" in ${__dirname}`);
    return null;
  }
}

const adapter = { createDebugAdapterDescriptor: () => new vscode.DebugAdapterExecutable(path.join(tools, "dap")) };

// What is debugged where no launch.json says it: the scenario that is open.
const THIS_FILE = { type: "jsoncrdt", request: "launch", name: "Debug the scenario", program: "${file}",
  stopOnEntry: true };
const configurations = { resolveDebugConfiguration: (folder, asked) => asked.type ? asked : THIS_FILE };

exports.activate = context => {
  context.subscriptions.push(vscode.debug.registerDebugAdapterDescriptorFactory("jsoncrdt", adapter),
    vscode.debug.registerDebugConfigurationProvider("jsoncrdt", configurations));
  const found = library();
  if (!found) return undefined;
  const servers = { run: server, debug: server }, texts = { documentSelector: [{ language: "jsoncrdt" }] };
  client = new found.LanguageClient("jsoncrdt", "jsoncrdt scenarios", servers, texts);
  return client.start();
};

exports.deactivate = () => client?.stop();
