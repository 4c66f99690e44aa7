#!/usr/bin/python3
"""The first process of a guest. It does what comes over the second serial port, a line of JSON each, and answers each by a line:
words for the shell, runs of cxl-capture, files that are wanted, and stores to and loads from physical addresses."""

import ast
import base64
import importlib
import json
import mmap
import os
import subprocess
import sys
import traceback
import tty
import types
from typing import Callable, Dict, NoReturn

PORT = "/dev/ttyS1"
TOOL = "/usr/bin/cxl-capture"
PAGE = mmap.PAGESIZE


def run(words: str) -> dict:
    done = subprocess.run(["/bin/sh", "-c", words], stdin=subprocess.DEVNULL, stdout=subprocess.PIPE, stderr=subprocess.STDOUT,
                          check=False)
    return {"status": done.returncode, "said": done.stdout.decode("utf-8", "replace")}


# ---- cxl-capture, in a process of its own. It is compiled once for all runs, which takes long without a processor of its own.

def compiled() -> types.CodeType:
    with open(TOOL, encoding="utf-8") as opened:
        tree = ast.parse(opened.read(), TOOL)
    for line in tree.body:
        if isinstance(line, ast.Import):
            for name in line.names:
                importlib.import_module(name.name)
    return compile(tree, TOOL, "exec")


def capture(words: list) -> dict:
    back, end = os.pipe()
    child = os.fork()
    if child == 0:
        os.dup2(end, 1)
        os.dup2(end, 2)
        os._exit(carry_out(words))
    os.close(end)
    with os.fdopen(back, "rb") as opened:
        said = opened.read().decode("utf-8", "replace")
    status = os.waitpid(child, 0)[1]
    return {"status": os.WEXITSTATUS(status) if os.WIFEXITED(status) else 255, "said": said}


def carry_out(words: list) -> int:
    """As the interpreter does it; the exit status is given back."""
    main = sys.modules["__main__"] = types.ModuleType("__main__")
    sys.argv, status = [TOOL, *words], 0
    try:
        exec(CODE, main.__dict__)  # pylint: disable=exec-used
    except SystemExit as ended:
        status = ended.code if isinstance(ended.code, int) else 1 if ended.code else 0
    except BaseException:  # pylint: disable=broad-except
        traceback.print_exc()
        status = 1
    sys.stdout.flush()
    sys.stderr.flush()
    return status


# ---- Files and memory.

def files(paths: list) -> dict:
    found = {}
    for path in paths:
        with open(path, "rb") as opened:
            found[path] = base64.b64encode(opened.read()).decode()
    return found


def access(stores: list) -> list:
    """Stores bytes at each address, and loads as many again."""
    found = []
    memory = os.open("/dev/mem", os.O_RDWR | os.O_SYNC)
    for address, data in stores:
        raw, at = bytes.fromhex(data), address % PAGE
        with mmap.mmap(memory, PAGE, offset=address - at) as mapped:
            mapped[at:at + len(raw)] = raw
            found.append(mapped[at:at + len(raw)].hex())
    os.close(memory)
    return found


# ---- The port.

DOES: Dict[str, Callable] = {"run": run, "capture": capture, "files": files, "access": access}


def answer(line: str) -> dict:
    try:
        asked = json.loads(line)
        return {"answer": DOES[asked["do"]](asked["with"])}
    except (OSError, ValueError, KeyError) as fault:
        return {"fault": f"{type(fault).__name__}: {fault}"}


def serve() -> NoReturn:
    port = os.open(PORT, os.O_RDWR | os.O_NOCTTY)
    tty.setraw(port)
    send(port, {"answer": "ready"})
    text = b""
    while True:
        text += os.read(port, PAGE)
        while b"\n" in text:
            line, _, text = text.partition(b"\n")
            send(port, answer(line.decode()))


def send(port: int, said: dict) -> None:
    data = json.dumps(said).encode() + b"\n"
    while data:
        data = data[os.write(port, data):]


if __name__ == "__main__":
    os.environ.update(PATH="/usr/bin:/bin:/sbin:/usr/sbin", HOME="/root", LC_ALL="C")
    for kind, place in (("proc", "/proc"), ("sysfs", "/sys"), ("devtmpfs", "/dev"), ("tmpfs", "/tmp")):
        os.makedirs(place, exist_ok=True)
        subprocess.run(["/usr/bin/busybox", "mount", "-t", kind, kind, place], check=False)
    subprocess.run(["/usr/bin/busybox", "--install", "-s", "/bin"], check=False)
    CODE = compiled()
    serve()
