"""The remote serial protocol of gdb, which valgrind's gdbserver speaks through the relay `vgdb`.

gdb itself isn't needed: a packet is `$TEXT#SUM`, and each packet is acknowledged by `+`.
"""
import os
import re
import subprocess
import time

SECONDS = 120
ESCAPE, RUN = 0x7D, 0x2A


class Remote:
    """A connection to the gdbserver of a process that valgrind runs."""

    def __init__(self, process, prefix):
        self.received, self.has_ended = b"", False
        self.relay = connected(process, prefix)

    def ask(self, text):
        """The reply to a packet."""
        self.send(text)
        return self.reply()

    def send(self, text):
        """Sends a packet."""
        self.relay.stdin.write(b"$" + text.encode() + b"#%02x" % (sum(text.encode()) % 256))

    def reply(self):
        """The next packet: the text between `$` and `#`. `W00` once the process has ended."""
        while True:
            found = re.search(rb"\$([^#]*)#..", self.received, re.DOTALL)
            if found:
                self.received = self.received[found.end():]
                self.relay.stdin.write(b"+")
                return expanded(found[1]).decode("latin-1")
            more = os.read(self.relay.stdout.fileno(), 65536)
            if not more:
                self.has_ended = True
                return "W00"
            self.received += more

    def monitor(self, command):
        """The output of one of memcheck's own commands."""
        self.send("qRcmd," + command.encode().hex())
        output = ""
        while True:
            reply = self.reply()
            if self.has_ended or not reply.startswith("O") or reply == "OK":
                return output
            output += bytes.fromhex(reply[1:]).decode(errors="replace")

    def close(self):
        """Ends the relay."""
        if self.relay.poll() is None:
            self.relay.kill()
        self.relay.wait()


def connected(process, prefix):
    """The relay to the gdbserver, once that listens."""
    folder, name = os.path.split(prefix)
    until = time.time() + SECONDS
    while time.time() < until:
        if any(file.startswith(name + "-from") for file in os.listdir(folder)):
            command = ["vgdb", f"--pid={process.pid}", "--vgdb-prefix=" + prefix, "--wait=20"]
            return subprocess.Popen(command, stdin=subprocess.PIPE, stdout=subprocess.PIPE,
                                    stderr=subprocess.DEVNULL, bufsize=0)
        if process.poll() is not None:
            break
        time.sleep(0.02)
    raise RuntimeError("valgrind doesn't listen")


def expanded(packet):
    """A packet without its escapes and run lengths."""
    text, at = bytearray(), 0
    while at < len(packet):
        if packet[at] == ESCAPE:
            text.append(packet[at + 1] ^ 0x20)
            at += 2
        elif packet[at] == RUN:
            text.extend(text[-1:] * (packet[at + 1] - 29))
            at += 2
        else:
            text.append(packet[at])
            at += 1
    return bytes(text)
