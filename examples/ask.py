"""Asks of the host in the folder `host` by the package cxlplan: PYTHONPATH=python python3 examples/ask.py"""

import cxlplan

host = cxlplan.Host.from_folder("host")
print(host.where(0x110000800).endpoint, host.host_of("mem0", 0).as_dict())
try:
    host.plan("r1 pmem 0x10000000 mem0")
except cxlplan.Refusal as refused:
    print(refused.status, refused.cause, refused.place)
with host.session() as session:
    session.store(0x110000800, b"\1\2")
    print(session.load(0x110000800, 4).hex())
