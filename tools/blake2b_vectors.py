#!/usr/bin/env python3
"""Writes what the program test_blake2b must write, by Python's own BLAKE2b.

Run it in the repository's root:

  python3 tools/blake2b_vectors.py > crates/test_blake2b/stdout

Byte i of an input is i % 251. An input's hash is that of the whole, however it is fed.
"""
import hashlib

LENGTHS = [0, 1, 3, 63, 64, 65, 127, 128, 129, 255, 256, 257, 1000, 65536]
CUTS = [1, 63, 128, 129]
STEPS = [127, 128, 129, 255, 256, 257]


def ckb_hash(parts):
    state = hashlib.blake2b(digest_size=32, person=b"ckb-default-hash")
    for part in parts:
        state.update(part)
    return state.hexdigest()


def pattern(n):
    return bytes(i % 251 for i in range(n))


def steps(data, step):
    return [data[at:at + step] for at in range(0, len(data), step)]


def in_two(data):
    return [[data[:a], data[a:]] for a in range(len(data) + 1)]


def in_three(data):
    ends = range(len(data) + 1)
    return [[data[:a], data[a:b], data[b:]] for a in ends for b in ends[a:]]


def print_splits(name, data, splits):
    whole = ckb_hash([data])
    print(name, len(data), "splits", sum(ckb_hash(parts) == whole for parts in splits), whole)


print("abc", hashlib.blake2b(b"abc").hexdigest())
for n in LENGTHS:
    data = pattern(n)
    print("ckb", n, "whole", ckb_hash([data]))
    for at in CUTS:
        print("ckb", n, "cut", at, ckb_hash([data[:at], data[at:]]))
    for step in STEPS:
        print("ckb", n, "feeds of", step, ckb_hash(steps(data, step)))
for n in range(401):
    print_splits("two", pattern(n), in_two(pattern(n)))
    if 256 <= n <= 272:
        print_splits("three", pattern(n), in_three(pattern(n)))
