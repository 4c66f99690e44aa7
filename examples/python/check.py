"""Says whether a register image is sound: its regions, or the first rule that it breaks, and ends as `cxlplan check` does."""
import sys

import cxlplan

try:
    host = cxlplan.Host.from_files(*sys.argv[1:4])
    for region in host.check():
        names = ", ".join(slot.endpoint for slot in region.slots)
        print(f"{region.base:#x}: {region.size:#x} bytes over {names}")
except cxlplan.CxlError as fault:
    print(fault)
    sys.exit(fault.status)
