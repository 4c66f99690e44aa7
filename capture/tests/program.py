"""The proved program and the library, as far as they are built: those that the variables CXLPLAN and CXLPLAN_LIBRARY name, or else
crates/cxlplan/out/cxlplan and crates/cxl_c/out/libcxlplan.so.1, which ./prove at the top builds."""

import os
import subprocess
import unittest

import machines

CXLPLAN = os.environ.get("CXLPLAN", os.path.join(machines.TOP, "crates", "cxlplan", "out", "cxlplan"))

LIBRARY = os.environ.get("CXLPLAN_LIBRARY", os.path.join(machines.TOP, "crates", "cxl_c", "out", "libcxlplan.so.1"))

# For tests that ask the program, and of trees and windows the library: they are skipped where these are not built.
asks_the_program = unittest.skipUnless(os.access(CXLPLAN, os.X_OK) and os.path.exists(LIBRARY), "./prove --library builds what is asked")


def cxlplan(*words):
    """What the program answers to these words: its exit status, and the text of both outputs."""
    ran = subprocess.run([CXLPLAN, *words], stdin=subprocess.DEVNULL, stdout=subprocess.PIPE, stderr=subprocess.STDOUT,
                         check=False)
    return ran.returncode, ran.stdout.decode()
