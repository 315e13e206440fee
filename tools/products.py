#!/usr/bin/env python3
"""The expected output of the crate `products`: every product of two bytes, a row for each first factor, in hexadecimal.

The product is that of vectors.py, which shares nothing with the engine.
"""
from vectors import Bytes

for a in range(256):
    print(f"{a:02x}: " + "".join(f"{Bytes().mul(a, b):02x}" for b in range(256)))
