"""Prints how many crates of crates.txt a crate rests on, itself included: closure.py NAME crates.txt"""
import sys

name, path = sys.argv[1:]
rests = {}
for line in open(path, encoding='utf-8'):
    head, _, tail = line.split('#')[0].partition(':')
    if head.strip():
        rests[head.split()[0]] = tail.split()
found, todo = set(), [name]
while todo:
    crate = todo.pop()
    if crate in rests and crate not in found:
        found.add(crate)
        todo += rests[crate]
print(len(found))
