"""Packets of gdb's remote protocol, as gdb sends them."""
import pathlib
import subprocess


class Session:
    """The other end of a debugger's pipe."""

    def __init__(self, program, folder, image, *options):
        words = [program, "gdb", *options, image, "script"]
        self.process = subprocess.Popen(words, cwd=folder, stdin=subprocess.PIPE, stdout=subprocess.PIPE, bufsize=0)
        self.rest = b""
        self.took = 0.0
        self.console = b""
        self.ask("QStartNoAckMode")
        self.ask("qSupported:multiprocess+;swbreak+")

    def __enter__(self):
        return self

    def __exit__(self, *_):
        self.process.stdin.write(b"$k#6b")
        self.process.stdin.close()
        self.process.stdout.close()
        self.process.wait()

    def next_packet(self):
        """The body of the next packet; what is printed on the console is kept."""
        while True:
            end = self.rest.find(b"#")
            if 0 <= end and end + 3 <= len(self.rest):
                body = self.rest[self.rest.index(b"$") + 1 : end].decode(errors="replace")
                self.rest = self.rest[end + 3 :]
                if body == "OK" or not body.startswith("O"):
                    return body
                self.console += bytes.fromhex(body[1:])
                continue
            piece = self.process.stdout.read(65536)
            if not piece:
                raise EOFError("the program has ended")
            self.rest += piece

    def ask(self, body):
        """The answer to a packet. `took` becomes the processor time that it took."""
        before = self.seconds()
        self.process.stdin.write(f"${body}#{sum(body.encode()) % 256:02x}".encode())
        answer = self.next_packet()
        self.took = self.seconds() - before
        return answer

    def order(self, text):
        """What gdb's `monitor` sends."""
        assert self.ask("qRcmd," + text.encode().hex()) == "OK", text

    def go_to(self, event):
        """Forward to a time, or to the end."""
        self.order(f"stop-at event {event}")
        self.ask("vCont;c")
        self.order("stop-at event 0")

    def seconds(self):
        return int(pathlib.Path(f"/proc/{self.process.pid}/schedstat").read_text().split()[0]) / 1e9

    def peak(self):
        """The most memory that it had, in megabytes."""
        status = pathlib.Path(f"/proc/{self.process.pid}/status").read_text()
        return next(int(line.split()[1]) / 1024 for line in status.splitlines() if line.startswith("VmHWM:"))
