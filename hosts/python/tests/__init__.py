"""Tests of the package and of the desk: python3 -m unittest discover, in hosts/python."""
