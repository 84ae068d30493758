"""Asks the module of tree/python for cumulative figures, and prints the fault."""
import sys

sys.path.append("tree/python")
import mrp

try:
    mrp.cums(mrp.Table([]))
except mrp.Fault as it:
    print(repr(it))
