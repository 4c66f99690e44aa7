"""A machine of QEMU with Linux on it, once its firmware has run and before its drivers are there. Its registers and the memory of
its devices are seen from outside, as peers/qemu sees them; what is done inside is asked over a serial port."""

import base64
import json
import os
import socket
import time
from typing import Optional

import host
import hosts
import packages
import peer
from qtest import QemuFault

HERE = os.path.dirname(os.path.abspath(__file__))
TOP = os.path.dirname(os.path.dirname(HERE))
CAPTURE = os.path.join(TOP, "capture", "cxl-capture")
AGENT = os.path.join(HERE, "agent.py")
MEMORY = "640M"
PROCESSOR = "qemu64,hypervisor=off"  # a kernel that knows that it is a guest makes no region, since it cannot empty caches
# An unknown word with "=" comes to the first process as a variable: Python then starts before there is a source of chance.
KERNEL_WORDS = ("console=ttyS0 iomem=relaxed panic=-1 mitigations=off audit=0 loglevel=4 no_timer_check nowatchdog "
                "rcupdate.rcu_cpu_stall_suppress=1 PYTHONHASHSEED=0")
BOOT_TIME, WORK_TIME = 1800, 300  # seconds, in which Linux comes up, and in which it does one thing, on a busy machine too
LOOKS = 100  # for devices, ten a second
CONSOLE, PORT, INITRD = "console.log", "agent", "initrd"


class Refused(Exception):
    """What the guest could not do."""


class Guest(peer.Peer):
    """Use it in a `with`. The processor stands still until `boot`, so that registers can be set before the driver."""

    machine: hosts.Host

    def __init__(self, machine: hosts.Host, system: packages.System, below: Optional[str]):
        self.system = system
        super().__init__(machine, below)

    def words(self, has_ram: bool) -> list:
        archive = packages.Archive()
        for path, source in (("init", AGENT), ("usr/bin/cxl-capture", CAPTURE)):
            with open(source, "rb") as opened:
                archive.put(path, 0o755, opened.read(), "file")
        archive.put("dev", 0o755, b"", "folder")
        archive.put("dev/console", 0o600, b"", "characters", (5, 1))
        initrd = self.save(INITRD, self.system.tree() + archive.whole())
        at = {name: os.path.join(self.folder, name) for name in (CONSOLE, PORT)}
        return [*super().words(has_ram), "-no-reboot", "-cpu", PROCESSOR, "-m", MEMORY, "-kernel", self.system.kernel(),
                "-initrd", initrd, "-append", KERNEL_WORDS, "-serial", f"file:{at[CONSOLE]}",
                "-serial", f"unix:{at[PORT]},server=on,wait=off"]

    def firmware_tables(self) -> dict:
        self.tables = super().firmware_tables()
        return self.tables

    def boot(self) -> float:
        """Linux comes up, and the seconds that it took are given back. It has no driver of CXL devices yet."""
        begun = time.monotonic()
        self.port = socket.socket(socket.AF_UNIX)
        self.port.connect(os.path.join(self.folder, PORT))
        self.port.settimeout(BOOT_TIME)
        self.lines = self.port.makefile("rb")
        self.qemu.command("cont")
        if self.receive() != "ready":
            raise QemuFault("the guest is not ready")
        self.port.settimeout(WORK_TIME)
        return time.monotonic() - begun

    def __exit__(self, *words):
        if hasattr(self, "port"):
            self.lines.close()
            self.port.close()
        super().__exit__(*words)

    # ---- What is done inside.

    def receive(self):
        try:
            line = self.lines.readline()
        except OSError as fault:
            raise QemuFault(f"the guest does not answer: {fault}; {self.console()}") from None
        if not line:
            raise QemuFault(f"the guest ended: {self.console()}")
        answer = json.loads(line)
        if "fault" in answer:
            raise Refused(answer["fault"])
        return answer["answer"]

    def console(self) -> str:
        """The last that the kernel said."""
        with open(os.path.join(self.folder, CONSOLE), encoding="utf-8", errors="replace") as opened:
            return " / ".join(opened.read().split("\n")[-4:])

    def ask(self, what: str, words):
        self.port.sendall(json.dumps({"do": what, "with": words}).encode() + b"\n")
        return self.receive()

    def run(self, words: str) -> tuple:
        """The status of words of the shell, and what they said on both outputs."""
        answer = self.ask("run", words)
        return answer["status"], answer["said"]

    def capture(self, *words: str) -> tuple:
        """The same of cxl-capture."""
        answer = self.ask("capture", list(words))
        return answer["status"], answer["said"]

    def wants(self, words: str) -> str:
        status, said = self.run(words)
        if status:
            raise Refused(f"{words}: status {status}: {' / '.join(said.strip().splitlines()[-3:])}")
        return said

    def files(self, *paths: str) -> dict:
        return {path: base64.b64decode(data) for path, data in self.ask("files", list(paths)).items()}

    def access(self, stores: list) -> list:
        """Stores bytes at each address, and what loads give behind each."""
        return [bytes.fromhex(it) for it in self.ask("access", [[address, data.hex()] for address, data in stores])]

    def load_drivers(self) -> None:
        """Loads them, and waits until each device has a port, or is not going to have one."""
        self.wants("for it in /modules/*.ko; do insmod $it || exit 1; done")
        count = len(self.machine.devices())
        for kind in ("mem", "endpoint"):
            self.run(f"n=0; while [ $(ls -d /sys/bus/cxl/devices/{kind}* 2>/dev/null | wc -l) -lt {count} ] && [ $n -lt {LOOKS} ]; "
                     "do n=$((n + 1)); sleep 0.1; done")

    # ---- What is seen from outside.

    def look_again(self) -> None:
        """Linux may have placed the registers elsewhere."""
        self.qemu.command("stop")
        self.host = host.Host(self.qemu, self.tables)
        self.give_names()
        self.nodes = self.host.nodes
        self.blocks = {node.name: node.block for node in self.nodes if node.block}
        self.qemu.command("cont")
