"""QEMU as a machine whose memory is read and written from outside: the qtest protocol for memory,
QMP to stop it.

Both are lines over sockets that QEMU inherits. Firmware runs by TCG, on one processor; there is no
guest system."""

import json
import os
import socket
import subprocess

ANSWER_TIME = 300  # seconds, in which QEMU answers one line, on a busy machine too
AT_ONCE = 100  # lines that are sent before their answers are read


class QemuFault(Exception):
    """QEMU ended, or answered something else than it should."""


class Channel:
    """One socket that QEMU inherits, and the lines over it."""

    def __init__(self):
        self.ours, self.theirs = socket.socketpair()
        self.ours.settimeout(ANSWER_TIME)
        self.lines = self.ours.makefile("rb")

    def send(self, line: str) -> None:
        try:
            self.ours.sendall(line.encode() + b"\n")
        except OSError as fault:
            raise QemuFault(f"QEMU takes no line: {fault}") from None

    def receive(self) -> str:
        try:
            line = self.lines.readline()
        except OSError as fault:
            raise QemuFault(f"QEMU does not answer: {fault}") from None
        if not line:
            raise QemuFault("QEMU ended")
        return line.decode().rstrip("\r\n")


class Qemu:
    """A running QEMU with these words behind its own. Use it in a `with`, which ends it."""

    def __init__(self, program: str, words: list, log: str):
        self.memory, self.control = Channel(), Channel()
        channels = [("qtest", self.memory), ("qmp", self.control)]
        options = ["-qtest", "chardev:qtest", "-qtest-log", "none", "-mon", "chardev=qmp,mode=control"]
        for name, channel in channels:
            options += ["-chardev", f"socket,id={name},fd={channel.theirs.fileno()}"]
        with open(log, "wb") as opened:
            self.process = subprocess.Popen(
                [program, *options, *words], stdin=subprocess.DEVNULL, stdout=opened, stderr=subprocess.STDOUT,
                pass_fds=[channel.theirs.fileno() for _, channel in channels])
        for _, channel in channels:
            channel.theirs.close()
        try:
            self.control.receive()  # the greeting
            self.command("qmp_capabilities")
        except QemuFault:
            self.__exit__()
            with open(log, encoding="utf-8", errors="replace") as opened:
                raise QemuFault(f"QEMU does not start: {opened.read().strip()[-200:]}") from None

    def __enter__(self):
        return self

    def __exit__(self, *_):
        self.process.kill()
        self.process.wait()
        for channel in (self.memory, self.control):
            channel.lines.close()
            channel.ours.close()

    def command(self, name: str, **arguments):
        """A QMP command, whose events are passed over."""
        self.control.send(json.dumps({"execute": name, "arguments": arguments}))
        while True:
            answer = json.loads(self.control.receive())
            if "error" in answer:
                raise QemuFault(f"{name}: {answer['error']['desc']}")
            if "return" in answer:
                return answer["return"]

    def ask(self, *lines: str) -> list:
        """What QEMU answers to each line of qtest, behind its OK. Lines are sent some at a time, so
        that neither side waits for the other at each of them."""
        answers = []
        for at in range(0, len(lines), AT_ONCE):
            some = lines[at:at + AT_ONCE]
            self.memory.send("\n".join(some))
            for line in some:
                answer = self.memory.receive()
                if answer != "OK" and not answer.startswith("OK "):
                    raise QemuFault(f"{line[:60]}: {answer[:60]}")
                answers.append(answer[3:])
        return answers

    def read(self, address: int, length: int) -> bytes:
        return bytes.fromhex(self.ask(f"read {address:#x} {length:#x}")[0][2:])

    def write(self, address: int, data: bytes) -> None:
        self.ask(f"write {address:#x} {len(data):#x} 0x{data.hex()}")

    def read32(self, *addresses: int) -> list:
        """The words at these addresses."""
        return [int(answer, 16) for answer in self.ask(*[f"readl {address:#x}" for address in addresses])]

    def write32(self, words: dict) -> None:
        """Words by their addresses, in this order."""
        self.ask(*[f"writel {address:#x} {value:#x}" for address, value in words.items()])
