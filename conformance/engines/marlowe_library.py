#!/usr/bin/env python3
"""An engine for the suite: the library of bindings/, in this process.

Usage    run.py python3 conformance/engines/marlowe_library.py LIBRARY      (as bindings/out/libmarlowe.so)
"""
import os
import sys

sys.path.append(os.path.join(os.path.dirname(os.path.abspath(__file__)), "..", "..", "bindings", "python"))
from marlowe import Marlowe

engine = Marlowe(os.path.abspath(sys.argv[1]))
for line in sys.stdin.buffer:
    sys.stdout.buffer.write(engine.answer(line.rstrip(b"\n")))
    sys.stdout.flush()
