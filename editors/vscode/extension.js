// Starts the language server, which stands beside this folder, and gives it to VS Code.
"use strict";
const fs = require("fs");
const path = require("path");
const { LanguageClient } = require("vscode-languageclient/node");

let client;

exports.activate = () => {
  // The folder may be a link from where VS Code looks for extensions.
  const server = path.join(fs.realpathSync(__dirname), "..", "server", "main.py");
  client = new LanguageClient("inet", "inet", { command: "python3", args: [server] }, { documentSelector: [{ language: "inet" }] });
  return client.start();
};

exports.deactivate = () => client && client.stop();
