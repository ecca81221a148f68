#!/usr/bin/env python3
"""Tries random changes on a server: edits.py PROGRAM ROUNDS SEED

Each round opens a text, changes it some times, and asks for its tokens, by delta after each time. The same text, as the
protocol's rules give it here, is opened under another name: tokens, outline, foldings and problems of both have to be
equal, and the deltas have to make the tokens.
"""
import random
import subprocess
import sys

from frames import bodies, changed, message_frame

PIECES = ["= Hi", "\n", "\r\n", "\r", "*a*", "_b_", "💛", "ä", "#let x = 1", "#{", "}", "[", "]", "$x^2$", "`r`", "```\nraw\n```",
          "<l>", "@l", "- item", "/ t: d", "// c", "/* c", "*/", " ", "  ", "\u2028", "\x0b", "\x85", "\"", "https://a.b", "\\", "%", "a", ";"]


def random_text(rng, most):
    return "".join(rng.choice(PIECES) for _ in range(rng.randrange(most)))


def random_change(rng, text, encoding):
    if rng.random() < 0.1:
        new = random_text(rng, 20)
        return {"text": new}, new
    places = [{"line": rng.randrange(8), "character": rng.randrange(14)} for _ in range(2)]
    if rng.random() < 0.8:
        places.sort(key=lambda place: (place["line"], place["character"]))
    change = {"range": dict(zip(("start", "end"), places)), "text": random_text(rng, 4)}
    return change, changed(text, change, encoding)


def question(name, uri, identifier, **more):
    return {"jsonrpc": "2.0", "id": identifier, "method": "textDocument/" + name, "params": {"textDocument": {"uri": uri}, **more}}


def questions(uri, first):
    names = ["semanticTokens/full", "documentSymbol", "foldingRange"]
    return [question(name, uri, first + i) for i, name in enumerate(names)]


def dialogue(rng, rounds, encoding):
    messages = [{"jsonrpc": "2.0", "id": -1, "method": "initialize", "params": {"capabilities": {"general": {"positionEncodings": [encoding]},
                                                              "textDocument": {"documentSymbol": {"hierarchicalDocumentSymbolSupport": True}}}}}]
    number, named = 0, 0
    for round in range(rounds):
        text = random_text(rng, 30) + "\n= Hi\n\na _b_\n" * rng.choice((0, 40))
        a, b = f"file:///{round}a", f"file:///{round}b"
        messages.append({"jsonrpc": "2.0", "method": "textDocument/didOpen", "params": {"textDocument": {"uri": a, "version": 0, "text": text}}})
        messages.append(question("semanticTokens/full", a, f"{round}"))
        for version in range(rng.randrange(1, 6)):
            changes = []
            for _ in range(rng.randrange(1, 4)):
                change, text = random_change(rng, text, encoding)
                changes.append(change)
            messages.append({"jsonrpc": "2.0", "method": "textDocument/didChange",
                             "params": {"textDocument": {"uri": a, "version": version}, "contentChanges": changes}})
            named += 1
            messages.append(question("semanticTokens/full/delta", a, f"{round}-{version}", previousResultId=str(named)))
        messages.append({"jsonrpc": "2.0", "method": "textDocument/didOpen", "params": {"textDocument": {"uri": b, "version": version, "text": text}}})
        messages += questions(a, number) + questions(b, number + 3)
        number += 6
        named += 3
    return messages + [{"jsonrpc": "2.0", "id": -2, "method": "shutdown"}, {"jsonrpc": "2.0", "method": "exit"}]


def made_by_deltas(results, round):
    """The tokens that a client has after the deltas of a round."""
    data, version = results[f"{round}"]["data"], 0
    while f"{round}-{version}" in results:
        for edit in results[f"{round}-{version}"]["edits"]:
            data[edit["start"]:edit["start"] + edit["deleteCount"]] = edit["data"]
        version += 1
    return data


def main(program, rounds, seed):
    for encoding in ("utf-16", "utf-8"):
        rng = random.Random(seed)
        sent = b"".join(map(message_frame, dialogue(rng, rounds, encoding)))
        run = subprocess.run([program], input=sent, capture_output=True)
        assert run.returncode == 0, run
        results, problems = {}, {}
        for message in bodies(run.stdout):
            if "id" in message:
                assert message["id"] not in results, message
                results[message["id"]] = message["result"]
            else:
                problems[message["params"]["uri"]] = message["params"]["diagnostics"]
        for round in range(rounds):
            for question in range(3):
                mine, other = results[6 * round + question], results[6 * round + 3 + question]
                if question == 0:
                    mine, other = mine["data"], other["data"]
                    made = made_by_deltas(results, round)
                    assert made == other, (encoding, round, made, other)
                assert mine == other, (encoding, round, question, mine, other)
            assert problems[f"file:///{round}a"] == problems[f"file:///{round}b"], (encoding, round)
        print(f"{encoding}: {rounds} rounds, all equal")


if __name__ == "__main__":
    main(sys.argv[1], int(sys.argv[2]), int(sys.argv[3]))
