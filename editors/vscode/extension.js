const { LanguageClient } = require("vscode-languageclient/node");

let client;

exports.activate = () => {
  client = new LanguageClient("typst_lsp", "Typst", { command: "typst_lsp" }, { documentSelector: [{ language: "typst" }] });
  return client.start();
};

exports.deactivate = () => client && client.stop();
