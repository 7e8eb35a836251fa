#!/usr/bin/env python3
"""usage: plain.py SCRIPT ...    the scripts in the text format alone: decimals by their bits, no comments, none of the bench's own calls"""
import re
import struct
import sys


def word(w):
    if re.fullmatch(r'-?\d+(\.\d+)?(e-?\d+)?', w) and not re.fullmatch(r'-?\d+', w):
        return '0x' + struct.pack('>d', float(w)).hex()
    return w


def main():
    for path in sys.argv[1:]:
        for line in open(path):
            words = line.split('#')[0].split()
            if words and words[0] not in ('dump', 'check', 'setnext', 'setcell', 'setgone'):
                print(' '.join(word(w) for w in words))


main()
