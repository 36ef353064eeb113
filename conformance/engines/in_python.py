#!/usr/bin/env python3
"""An engine for the suite: the interpreter of checks/, over a stream of requests. It is the example of an adapter, and needs nothing built.

Usage    run.py python3 engines/in_python.py
Expect   for each line of standard input one line on standard output, flushed before the next one is read.

An adapter reads a line, which is a request; finds out whether it asks for `run`, `trace` or `read`; has its engine do that; and prints the
answer under the request's `id`. Here the three are done by functions of ../reference.py. Where an engine can't do what is asked, its adapter
answers `{"id":..,"unable":"read"}`, and the case is counted apart.
"""
import json
import os
import sys

sys.path.append(os.path.join(os.path.dirname(os.path.abspath(__file__)), ".."))
from reference import answer

for line in sys.stdin.buffer:
    told = answer(line.rstrip(b"\n"))
    sys.stdout.write(json.dumps(told, separators=(",", ":"), sort_keys=True, ensure_ascii=False) + "\n")
    sys.stdout.flush()
