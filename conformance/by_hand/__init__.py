"""Cases written by hand, each with the answer that its rule gives, worked out without the interpreter.

Usage    make.py imports it. Each file has a list CASES.
"""
import os
import sys

sys.path.append(os.path.join(os.path.dirname(os.path.abspath(__file__)), ".."))
