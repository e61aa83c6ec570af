#!/usr/bin/env python3
"""gdb_bridge.py PORT COMMAND..: starts COMMAND once somebody connects to this port of this computer, and is its pipe.

For debuggers that begin no program, as lldb: `gdb-remote PORT`. What lldb sends for `continue` and `step` is written as gdb does.
"""
import contextlib
import socket
import subprocess
import sys
import threading

# What lldb sends, and what gdb sends for the same.
AS_GDB = {b"$c#63": b"$vCont;c#a8", b"$s#73": b"$vCont;s#b8"}


def forward(connection, to):
    with contextlib.suppress(OSError):
        while piece := connection.recv(65536):
            to.write(AS_GDB.get(piece, piece))
    to.close()


def main():
    with socket.create_server(("127.0.0.1", int(sys.argv[1]))) as server:
        connection, _ = server.accept()
    process = subprocess.Popen(sys.argv[2:], stdin=subprocess.PIPE, stdout=subprocess.PIPE, bufsize=0)
    threading.Thread(target=forward, args=(connection, process.stdin), daemon=True).start()
    while piece := process.stdout.read(65536):
        connection.sendall(piece)
    connection.close()
    return process.wait()


if __name__ == "__main__":
    sys.exit(main())
