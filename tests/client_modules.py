"""The client modules of examples/, srcp_client.py and srcp_client.js: each drives, follows and tells refusals."""
import json
import re
import shutil
import socket
import subprocess
import sys
import threading
import time
from pathlib import Path

from serving import SECONDS, WELCOME, Client, TriedNothing, clients_at_all_places, free_port, served

TOP = Path(__file__).resolve().parent.parent
EXAMPLES = TOP / "examples"
GONE = "the server closed the connection"
FULL = "the server is full: 64 programs are connected"
HANDSHAKE = WELCOME, b"0.000 202 OK CONNECTIONMODE\n", b"0.000 200 OK GO 7\n"
# What a program of each language prints: {"id": .., "replies": [..], "refusals": [[code, text] ..], "rows": [..]}.
PYTHON = """
import json, sys
from srcp_client import Refused, Session, apply
port, commands, last = int(sys.argv[1]), json.loads(sys.argv[2]), sys.argv[3]
session, panel, told, rows = Session(port=port), Session(port=port, mode="INFO"), {"replies": [], "refusals": []}, {}
for command in commands:
    try:
        told["replies"].append(session.ask(command).partition(" ")[2])
    except Refused as refused:
        told["refusals"].append([refused.code, str(refused)])
told["unknown"] = [apply(rows, line) for line in ("0.000 103 INFO 1 GL 3", "0.000 100 INFO 1 SM 3 0", "0.000 600 NEWS")]
while not apply(rows, line := panel.line()) or not line.endswith(last):
    pass
print(json.dumps(told | {"id": session.id, "rows": sorted(rows.values())}))
"""
NODE = """
const { Refused, Session, apply } = require(process.argv[1] + "/srcp_client.js");
const [port, commands, last] = [+process.argv[2], JSON.parse(process.argv[3]), process.argv[4]];
(async () => {
  const told = { replies: [], refusals: [] }, rows = new Map();
  const session = await Session.begin({ port });
  const listed = new Promise((done) => Session.begin({ port, mode: "INFO",
    onLine: (line) => { if (apply(rows, line) && line.endsWith(last)) done(); } }));
  for (const command of commands) {
    try { told.replies.push((await session.ask(command)).replace(/^\\S+ /, "")); } catch (refused) {
      if (!(refused instanceof Refused)) throw refused;
      told.refusals.push([refused.code, refused.message]);
    }
  }
  told.unknown = ["0.000 103 INFO 1 GL 3", "0.000 100 INFO 1 SM 3 0", "0.000 600 NEWS"].map((one) => apply(rows, one));
  await listed;
  console.log(JSON.stringify({ ...told, id: session.id, rows: [...rows.values()].sort() }));
  process.exit();
})();
"""
# What each prints of a connection to a port: how it begins, and how a command that it then sends ends.
PYTHON_ENDS = """
import sys
from srcp_client import Full, Session
try:
    session = Session(port=int(sys.argv[1]), seconds=1)
    print("begun", session.id)
    print(session.ask("GET 1 POWER"))
except Full as fault:
    print("Full", fault)
except OSError as fault:
    print(type(fault).__name__, fault)
"""
NODE_ENDS = """
const { Session } = require(process.argv[1] + "/srcp_client.js");
(async () => {
  const session = await Session.begin({ port: +process.argv[2], seconds: 1 });
  console.log("begun", session.id);
  console.log(await session.ask("GET 1 POWER"));
  process.exit();
})().catch((fault) => console.log(fault.message));
"""
RANGE = "a word is wrong, or a number out of its range, or there is no such bus (412)"
COMMANDS = ["SET 1 POWER ON an ERROR of a text", "GET 1 POWER", "INIT 1 GL 3 N 1 28 2", "SET 1 GL 3 1 9 28 1",
            "INIT 1 GA 5 N", "SET 1 GA 5 1 1 -1", "INIT 1 GL 4 N 1 28 0", "TERM 1 GL 4", "GET 1 GL 4", "SET 1 GL 3 1 9",
            "SET 1 GL 10240 1 9 28", "SET 1 LOCK GL 3 0", "TERM 1 LOCK GL 3", "SET 1 FB 8 1"]
REPLIES = ["200 OK", "100 INFO 1 POWER ON an ERROR of a text", *["200 OK"] * 9]
REFUSALS = [["416", "GET 1 GL 4: it is not there (416)"], ["419", "SET 1 GL 3 1 9: too few words (419)"],
            ["412", "SET 1 GL 10240 1 9 28: " + RANGE]]
LAST = "100 INFO 1 FB 8 1"


def run_python(text: str, *words: object) -> str:
    """Returns what a program prints that has the module beside it."""
    return subprocess.run([sys.executable, "-c", text, *map(str, words)], cwd=EXAMPLES, check=True, text=True,
                          capture_output=True, timeout=SECONDS).stdout


def run_node(text: str, *words: object) -> str:
    """Returns what a program prints that takes the module."""
    if not (node := shutil.which("node") or shutil.which("nodejs")):
        raise TriedNothing("there is no node here")
    return subprocess.run([node, "-e", text, "--", str(EXAMPLES), *map(str, words)], check=True, text=True,
                          capture_output=True, timeout=SECONDS).stdout


def fault_of_a_client(program: str, run, text: str) -> str | None:
    """Returns what of a client is wrong, or None: it has each reply, has each refusal in words, and mirrors."""
    with served(program) as (port, _):
        before = Client(port, "COMMAND")
        got = json.loads(run(text, port, json.dumps(COMMANDS), LAST))
        fresh = Client(port, "INFO")
        fresh.hears_until(LAST.encode() + b"\n")
    rows = sorted(line.decode().strip() for line in fresh.lines if b" SESSION " not in line)
    mine = [row for row in got.pop("rows") if " SESSION " not in row]
    want = {"id": before.session + 1, "replies": REPLIES, "refusals": REFUSALS, "unknown": [False] * 3}
    if got != want:
        return f"got {got}, want {want}"
    return None if mine == rows and len(rows) > 10 else f"it holds {mine}, the server {rows}"


def fault_of_its_ends(program: str, run, text: str, named: bool) -> str | None:
    """Returns what of a client is wrong, or None: it tells a full server, one that goes, that is not there, and that
    does not answer. A line may come in pieces, and the end of one that is cut is no reply. `named`: the kind of the
    error is printed too."""
    def ends(answer: bytes, stays: bool) -> list[str]:
        with socket.create_server(("127.0.0.1", 0)) as server:
            def serve() -> None:
                peer, _ = server.accept()
                with peer, peer.makefile("rb") as lines:
                    for answered in (*HANDSHAKE, answer):
                        for piece in (answered[:-1], answered[-1:]):
                            peer.sendall(piece)
                            time.sleep(0.05)  # so that it is read by itself
                        if answered is not answer or stays:
                            lines.readline()
            thread = threading.Thread(target=serve)
            thread.start()
            told = run(text, server.getsockname()[1]).splitlines()
            thread.join(SECONDS)
        return told

    with served(program) as (port, _):
        clients = clients_at_all_places(port)
        full = run(text, port).splitlines()
        for client in clients:
            client.close()
    kinds = ["Full ", "Closed ", "Closed ", "TimeoutError ", "ConnectionRefusedError "] if named else [""] * 5
    late = "timed out" if named else "the server does not answer"
    got = full, ends(b"", False), ends(b"1.000 100 INFO 1 POW", False), ends(b"", True)
    want = [kinds[0] + FULL], ["begun 7", kinds[1] + GONE], ["begun 7", kinds[2] + GONE], ["begun 7", kinds[3] + late]
    away = run(text, free_port())
    return None if got == want and away.startswith(kinds[4]) and "refused" in away.lower() \
        else f"got {got}, {away!r}; want {want}"


def client_module_of_python(program: str) -> str | None:
    return fault_of_a_client(program, run_python, PYTHON) or fault_of_its_ends(program, run_python, PYTHON_ENDS, True)


def client_module_of_javascript(program: str) -> str | None:
    return fault_of_a_client(program, run_node, NODE) or fault_of_its_ends(program, run_node, NODE_ENDS, False)


def refusals_of_the_client_modules(_: str) -> str | None:
    """Both have each refusal that the protocol's page has, in the same words."""
    page = (TOP / "docs" / "protocol.md").read_text().partition("\n### Replies\n")[2].partition("\n## ")[0]
    codes = set(re.findall(r"^\|[^|]*`(\d+) ERROR", page, re.M))
    told = [dict(re.findall(r'\b"?(\d{3})"?: "([^"]+)"', (EXAMPLES / f"srcp_client.{end}").read_text()))
            for end in ("py", "js")]
    got = told[0] == told[1], set(told[0]) == codes, len(codes) > 10
    return None if got == (True, True, True) else f"alike, those of the page, some: {got}; {told}, {sorted(codes)}"


CLIENT_MODULE_CASES = (client_module_of_python, client_module_of_javascript, refusals_of_the_client_modules)
