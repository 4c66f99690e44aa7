"""CXL memory regions: what a host's registers do, whether they are sound, and what a new region needs.

    host = cxlplan.Host.from_folder("host")
    for region in host.check(): print(region.name, hex(region.base))
    host.where(0x110000800).endpoint

Each fact comes from the proved calls of cxlplan, by its library or its program; nothing is dealt, decoded or planned here."""

from .errors import (BadFile, BadImage, BadTable, BadTopology, BadWords, Breach, Broken, CxlError, NoEngine, NoMemory, Refusal)
from .facts import (Bridge, Decoder, Down, Extent, Maps, Node, Other, Piece, Place, Planned, Poison, Position, Reason, Region, Released,
                    Slot, Spread, Up, Via, Window, Write)
from .host import Host, Image, Table, Topology
from .session import Session

__version__ = "1.0.0"
__all__ = ["BadFile", "BadImage", "BadTable", "BadTopology", "BadWords", "Breach", "Bridge", "Broken", "CxlError", "Decoder", "Down",
           "Extent", "Host", "Image", "Maps", "NoEngine", "NoMemory", "Node", "Other", "Piece", "Place", "Planned", "Poison",
           "Position", "Reason", "Refusal", "Region", "Released", "Session", "Slot", "Spread", "Table", "Topology", "Up", "Via", "Window",
           "Write"]
