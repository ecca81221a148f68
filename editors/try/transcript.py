"""Compares what was said in a session with what a server says that is handed each text whole."""
import hashlib
import json
import pathlib
import subprocess
import time
from collections import Counter

from frames import bodies, changed, message_frame

FENCE = "`" * 40
PUBLISHED = "textDocument/publishDiagnostics"
TOKENS = "textDocument/semanticTokens/full"
OUTLINE = "textDocument/documentSymbol"


class Question:
    """A request about a document, with the text that it had then by the client's messages."""

    def __init__(self, message, text: str):
        self.id = message["id"]
        self.method = message["method"]
        self.params = message["params"]
        self.text = text


class Client:
    """What a client has sent: how its session began, its changes and its questions."""

    def __init__(self, data: bytes):
        self.begin = None
        self.questions = []
        self.changes = 0
        texts = {}
        for message in bodies(data):
            method, params = message.get("method"), message.get("params")
            if method == "initialize":
                self.begin = message
            elif method == "textDocument/didOpen":
                texts[params["textDocument"]["uri"]] = params["textDocument"]["text"]
            elif method == "textDocument/didChange":
                uri = params["textDocument"]["uri"]
                for change in params["contentChanges"]:
                    texts[uri] = changed(texts[uri], change, "utf-16")
                    self.changes += 1
            elif "id" in message and params and "textDocument" in params:
                self.questions.append(Question(message, texts[params["textDocument"]["uri"]]))


class Answer:
    """What a request was answered, and the errors and warnings that were published last before it.

    Answers about a large text are large, so only their digests are kept, and the name of a symbol that is alone.
    """

    def __init__(self, result, problems: str):
        self.problems = problems
        self.name = result[0].get("name") if isinstance(result, list) and len(result) == 1 else None
        if isinstance(result, dict) and "resultId" in result:
            result = {**result, "resultId": None}
        self.digest = digest_of(result)


def digest_of(value) -> str:
    return hashlib.sha256(json.dumps(value, sort_keys=True).encode()).hexdigest()


def answers(data: bytes):
    """The answer to each request."""
    found, problems = {}, ""
    for message in bodies(data):
        if "id" in message:
            found[message["id"]] = Answer(message.get("result", message.get("error")), problems)
        elif message["method"] == PUBLISHED:
            problems = digest_of(message["params"]["diagnostics"])
    return found


def fresh_answers(program: str, client: Client):
    """The same of a new server, which is handed the text of each question whole."""
    sent, opened = [client.begin], None
    for question in client.questions:
        if question.text != opened:
            opened = question.text
            document = {"uri": question.params["textDocument"]["uri"], "version": 0, "languageId": "typst", "text": opened}
            sent.append({"jsonrpc": "2.0", "method": "textDocument/didOpen", "params": {"textDocument": document}})
        sent.append({"jsonrpc": "2.0", "id": question.id, "method": question.method, "params": question.params})
    sent += [{"jsonrpc": "2.0", "id": "end", "method": "shutdown"}, {"jsonrpc": "2.0", "method": "exit"}]
    run = subprocess.run([program], input=b"".join(map(message_frame, sent)), capture_output=True, check=True)
    return answers(run.stdout)


def status_in(log: pathlib.Path) -> str:
    """The exit status of the server, which may end a moment after the editor."""
    for _ in range(100):
        if (log / "status").exists() and (status := (log / "status").read_text()):
            return status
        time.sleep(0.1)
    return "none"


class Comparison:
    """How many of which things agreed."""

    def __init__(self, program: str, log: pathlib.Path):
        self.good, self.all = Counter(), Counter()
        client = Client((log / "sent").read_bytes())
        told, fresh = answers((log / "told").read_bytes()), fresh_answers(program, client)
        self.changes = client.changes
        self.compare_answers(client, told, fresh)
        self.compare_texts(client, told, log)
        self.add("status 0", status_in(log) == "0\n")

    def add(self, name: str, agrees: bool) -> None:
        self.all[name] += 1
        self.good[name] += agrees

    def compare_answers(self, client: Client, told, fresh) -> None:
        for question in client.questions:
            answer, other = told[question.id], fresh[question.id]
            self.add(question.method.removeprefix("textDocument/"), answer.digest == other.digest)
            self.add("errors and warnings", answer.problems == other.problems)

    def compare_texts(self, client: Client, told, log: pathlib.Path) -> None:
        checkpoints = [question for question in client.questions if question.method == TOKENS]
        for number, question in enumerate(checkpoints, 1):
            buffer = (log / f"text{number}").read_bytes().decode()
            self.add("sent", question.text == buffer)
        for question in client.questions:
            if question.method == OUTLINE and question.text.startswith("= " + FENCE):
                self.add("held", told[question.id].name == question.text[2:].rstrip("\r\n"))

    def agreed(self) -> int:
        return sum(self.good.values())

    def asked(self) -> int:
        return sum(self.all.values())

    def __str__(self) -> str:
        counts = [f"{name} {self.good[name]}/{self.all[name]}" for name in sorted(self.all)]
        return f"{self.changes} changes sent; " + ", ".join(counts)
