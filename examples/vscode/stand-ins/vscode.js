// Stands in for the module `vscode`: a workspace of one folder, the present one.
const folder = { uri: { fsPath: process.cwd(), toString: () => "file://" + process.cwd() }, name: "project", index: 0 };

exports.workspace = {
  workspaceFolders: [folder],
  getConfiguration: () => ({ get: (_name, value) => value }),
};
