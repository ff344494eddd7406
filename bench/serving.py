"""What the scripts of this folder share that talk to `srb lsp`: frames, the program that they run, a server as a process, and a project of many files."""
import json
import os
import pathlib
import subprocess
import sys
import time

TOP = pathlib.Path(__file__).resolve().parent.parent
FILES = 4000
LINES = 100


def program():
    """The first argument, or else the program of this checkout, which is built where it isn't there."""
    if len(sys.argv) > 1:
        return pathlib.Path(sys.argv[1]).resolve()
    if subprocess.run([TOP / "srb"], stdout=subprocess.DEVNULL).returncode != 2:
        sys.exit("the program could not be built")
    return TOP / "crates/srb_cli/out/srb_cli"


# ---- frames


def framed(body):
    return b"Content-Length: %d\r\n\r\n" % len(body) + body


def frame(**message):
    return framed(json.dumps({"jsonrpc": "2.0", **message}).encode())


def received(stream):
    """The next message of a stream, `None` at its end."""
    size = 0
    while (line := stream.readline()) not in (b"\r\n", b""):
        name, value = line.split(b":")
        if name == b"Content-Length":
            size = int(value)
    return json.loads(stream.read(size)) if size else None


def all_received(data):
    messages = []
    while data:
        head, rest = data.split(b"\r\n\r\n", 1)
        size = int(head.split(b":")[1])
        messages.append(json.loads(rest[:size]))
        data = rest[size:]
    return messages


# ---- processes


def used(process):
    """The processor time of a process so far, user and system, in milliseconds."""
    fields = pathlib.Path(f"/proc/{process.pid}/stat").read_text().rsplit(")", 1)[1].split()
    return 1000 * (int(fields[11]) + int(fields[12])) / os.sysconf("SC_CLK_TCK")


class Server:
    """A server on a folder, with these options."""

    def __init__(self, binary, folder, *options):
        self.process = subprocess.Popen([binary, "lsp", *options, folder], stdin=subprocess.PIPE, stdout=subprocess.PIPE)

    def used(self):
        return used(self.process)

    def send(self, **message):
        self.process.stdin.write(frame(**message))
        self.process.stdin.flush()

    def receive(self):
        return received(self.process.stdout)

    def rest(self):
        """Waits until the server takes no processor time any more."""
        before = -1
        while (now := self.used()) != before:
            before = now
            time.sleep(0.05)

    def initialize(self, root):
        self.send(id=0, method="initialize", params={"capabilities": {}, "rootUri": root})

    def open(self, uri, text):
        self.send(method="textDocument/didOpen", params={"textDocument": {"uri": uri, "languageId": "ruby", "version": 1, "text": text}})

    def edit(self, uri, version, text):
        """Changes the whole text of a file, and gives the time until its list is there, in milliseconds, and how many other lists came before it."""
        start = time.monotonic()
        self.send(
            method="textDocument/didChange",
            params={"textDocument": {"uri": uri, "version": version}, "contentChanges": [{"text": text}]},
        )
        others = 0
        while True:
            params = self.receive().get("params", {})
            if params.get("uri") == uri and params["epoch"] >= version:
                return 1000 * (time.monotonic() - start), others
            others += "uri" in params and params["uri"] != uri

    def end(self):
        self.send(method="exit")
        self.process.stdin.close()
        while self.process.stdout.read(1 << 16):
            pass
        return self.process.wait()


# ---- a project


def text(n, value, more=""):
    """A file with an error where the value is a string, and this at its end."""
    return f"# typed: true\nx{n} = T.let({value}, Integer)\n" + "y = T.let(1, Integer)\n" * (LINES - 2) + more


def write_files(folder, count=FILES):
    for n in range(count):
        (pathlib.Path(folder) / f"f{n:04}.rb").write_text(text(n, '"a"'))


def shown(times):
    times.sort()
    return f"{times[0]:.1f}, {times[len(times) // 2]:.1f}, {times[-1]:.1f} ms"
