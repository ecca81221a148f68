#!/usr/bin/env python3
"""Runs the server $TRY_PROGRAM, and keeps in $TRY_LOG what it is sent, what it says and its exit status."""
import os
import pathlib
import subprocess
import sys
import threading


def copy(source, target, kept: pathlib.Path) -> None:
    with open(kept, "wb", buffering=0) as log:
        while data := os.read(source.fileno(), 1 << 16):
            log.write(data)
            target.write(data)
            target.flush()
    target.close()


def main() -> None:
    log = pathlib.Path(os.environ["TRY_LOG"])
    # In a session of its own, so that the status is kept also where the editor kills this process.
    words = ["sh", "-c", '"$TRY_PROGRAM"; echo $? > "$TRY_LOG/status"']
    server = subprocess.Popen(words, stdin=subprocess.PIPE, stdout=subprocess.PIPE, start_new_session=True)
    threading.Thread(target=copy, args=(sys.stdin.buffer, server.stdin, log / "sent"), daemon=True).start()
    copy(server.stdout, sys.stdout.buffer, log / "told")
    os._exit(server.wait())


main()
