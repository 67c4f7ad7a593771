"""Where the kit lies, for the tools that use its own scripts and programs."""
import os
import subprocess
import sys


def folder():
    """The folder of the kit, where `rt doc` says its first page lies."""
    said = subprocess.run(["rt", "doc"], check=True, capture_output=True, text=True).stdout
    return os.path.dirname(said.strip())


def scripts():
    """The kit's rtlib: what `rt` knows of crates."""
    sys.path.insert(0, os.path.join(folder(), "bin"))
    import rtlib

    return rtlib
