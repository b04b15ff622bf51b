"""Compares a kept output of the trial program with the oracle: kept.py OUTPUT COUNT SEED."""
import sys
argv = sys.argv[:]
import against as B
progs = B.G.programs(int(argv[2]), int(argv[3]))
text = open(argv[1]).read()
n = len(B.blocks(text))
B.compare(progs[:n - 1] if n <= len(progs) else progs, text)
