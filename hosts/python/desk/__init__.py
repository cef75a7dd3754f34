"""The desk: runs a typed sheet, asks hired solvers where a proposal is due, and shows what was taken and what was turned down.

It builds no solver and judges nothing: what it proposes is taken or turned down by the proved calls.
"""
