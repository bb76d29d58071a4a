// Starts `cobtool lsp` for scripts of cobench and for data sheets.
const { workspace } = require("vscode");
const { LanguageClient } = require("vscode-languageclient/node");

let client;

function activate() {
  const settings = workspace.getConfiguration("cobench");
  const [command, ...args] = settings.get("server");
  client = new LanguageClient("cobench", "cobench", { command, args }, {
    documentSelector: [{ language: "cobench" }, { language: "canopen-eds" }],
    initializationOptions: { values: settings.get("values") },
  });
  return client.start();
}

function deactivate() {
  return client ? client.stop() : undefined;
}

module.exports = { activate, deactivate };
