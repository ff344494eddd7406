// A session of the extension with `srb lsp`, in a folder with the wrong file `a.rb`: its error is shown, it follows an edit, and it
// goes with it. Ends with status 0 where all was seen.
const { readFileSync } = require("fs");
const extension = require("../extension.js");
const stand = require("vscode-languageclient/node");

const uri = "file://" + process.cwd() + "/a.rb";

// Waits until just these messages are shown of the file.
async function shows(what, messages) {
  const wanted = JSON.stringify(messages);
  const shown = () => JSON.stringify((stand.started.shown.get(uri) || []).map((d) => d.message));
  for (let tried = 0; shown() !== wanted; tried += 1) {
    if (tried === 1000) {
      throw new Error(`not seen: ${what}: ${shown()}`);
    }
    await new Promise((resolve) => setTimeout(resolve, 10));
  }
  console.log(`${what}: ${wanted}`);
}

async function main() {
  await extension.activate();
  const client = stand.started;
  const text = readFileSync("a.rb", "utf8");
  client.notify("textDocument/didOpen", { textDocument: { uri, languageId: "ruby", version: 1, text } });
  await shows("opened", ["expected Integer, found String"]);
  const range = { start: { line: 1, character: 10 }, end: { line: 1, character: 13 } };
  client.notify("textDocument/didChange", { textDocument: { uri, version: 2 }, contentChanges: [{ range, rangeLength: 3, text: "1" }] });
  await shows("mended", []);
  client.notify("textDocument/didClose", { textDocument: { uri } });
  await shows("closed", ["expected Integer, found String"]);
  console.log(`stopped: ${await extension.deactivate()}`);
}

main().catch((error) => {
  console.error(error.message);
  process.exit(1);
});
