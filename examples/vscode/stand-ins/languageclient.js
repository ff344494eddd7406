// Stands in for the module `vscode-languageclient/node`: starts the server that it is given, speaks the protocol with it over its
// standard input and output as VS Code's client does, and keeps the diagnostics shown last of each file.
const { spawn } = require("child_process");

const capabilities = {
  general: { positionEncodings: ["utf-16"] },
  textDocument: { synchronization: { didSave: true }, publishDiagnostics: { relatedInformation: true } },
};

exports.LanguageClient = class {
  constructor(id, name, server, options) {
    Object.assign(this, { id, name, server, options, replies: new Map(), shown: new Map(), last: 0, input: Buffer.alloc(0) });
    exports.started = this;
  }

  async start() {
    this.process = spawn(this.server.command, this.server.args, { stdio: ["pipe", "pipe", "inherit"] });
    this.ended = new Promise((resolve) => this.process.on("close", resolve));
    this.process.stdout.on("data", (data) => this.hear(data));
    const root = this.options.workspaceFolder;
    const folders = [{ uri: root.uri.toString(), name: root.name }];
    await this.request("initialize", { processId: process.pid, rootUri: root.uri.toString(), capabilities, workspaceFolders: folders });
    this.notify("initialized", {});
  }

  async stop() {
    await this.request("shutdown");
    this.notify("exit");
    return this.ended;
  }

  request(method, params) {
    this.last += 1;
    const id = this.last;
    this.write({ jsonrpc: "2.0", id, method, params });
    return new Promise((resolve, reject) => this.replies.set(id, { resolve, reject }));
  }

  notify(method, params) {
    this.write({ jsonrpc: "2.0", method, params });
  }

  write(message) {
    const body = Buffer.from(JSON.stringify(message));
    this.process.stdin.write(`Content-Length: ${body.length}\r\n\r\n`);
    this.process.stdin.write(body);
  }

  // takes all whole frames of what was read
  hear(data) {
    this.input = Buffer.concat([this.input, data]);
    for (;;) {
      const head = this.input.indexOf("\r\n\r\n");
      const length = head < 0 ? null : /Content-Length: (\d+)/i.exec(this.input.subarray(0, head));
      const end = length ? head + 4 + Number(length[1]) : Infinity;
      if (this.input.length < end) {
        return;
      }
      this.take(JSON.parse(this.input.subarray(head + 4, end)));
      this.input = this.input.subarray(end);
    }
  }

  take(message) {
    const reply = this.replies.get(message.id);
    if (message.method === "textDocument/publishDiagnostics") {
      this.shown.set(message.params.uri, message.params.diagnostics);
    } else if (reply) {
      this.replies.delete(message.id);
      message.error ? reply.reject(new Error(message.error.message)) : reply.resolve(message.result);
    }
  }
};
