"""The same as livepatch.c, by the Python module."""

import os
import sys

sys.path.insert(0, os.path.join(os.path.dirname(os.path.abspath(__file__)), "..", "bindings", "python"))
from livepatch import Engine  # noqa: E402

with Engine(model="hybrid", patches=[["a"]], boots=[1]) as engine:
    events = [("enter", 1), ("call", 1, "a"), ("sleep", 1), ("enable",), ("walk",), ("wake", 1), ("ret", 1), ("exit", 1)]
    for event in events:
        print(" ".join(map(str, event)) + ":", engine.step(*event))
        if engine.blame(1):
            print("  waits for the frame of event", engine.blame(1).serial)
