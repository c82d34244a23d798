"""Puts the folder tools/ on Python's path. A command of developers imports this module before those of `kulavemia`."""

import os
import sys

TOOLS = os.path.join(os.path.dirname(os.path.dirname(os.path.realpath(__file__))), "tools")
if TOOLS not in sys.path:
    sys.path.insert(1, TOOLS)
