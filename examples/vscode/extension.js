// Starts `srb lsp` for the Ruby files of the first folder of the workspace.
const { workspace } = require("vscode");
const { LanguageClient } = require("vscode-languageclient/node");

let client;

exports.activate = () => {
  const folders = workspace.workspaceFolders;
  if (!folders || folders.length === 0) {
    return undefined; // a single file without a folder is no project
  }
  const command = workspace.getConfiguration("srb").get("command", "srb");
  const server = { command, args: ["lsp", folders[0].uri.fsPath] };
  client = new LanguageClient("srb", "srb", server, {
    documentSelector: [{ scheme: "file", language: "ruby" }],
    workspaceFolder: folders[0],
  });
  return client.start();
};

exports.deactivate = () => (client ? client.stop() : undefined);
