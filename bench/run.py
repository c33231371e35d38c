#!/usr/bin/env python3
"""Measures the programs and the library's calls beside the second implementation, and prints tables in Markdown.

usage: bench/run.py [--times]

Instructions are counted by `valgrind --tool=callgrind`; it counts a byte that is cleared or copied in bulk as one. With
--times the wall times of one run are told too: the middle of many rounds. It needs crates/shift/out/shift and
crates/inspect/out/inspect (`rt run` in each of the two folders), crates/strakewhip/out/libstrakewhip.a
(`tools/library.sh archive`), cargo and valgrind.
"""
import os
import re
import statistics
import subprocess
import sys
import tempfile
import time

TOP = os.path.dirname(os.path.dirname(os.path.abspath(__file__)))
BUILT = os.path.join(TOP, 'target', 'bench', 'release', 'bench')
SECOND = os.path.join(TOP, 'reference', 'target', 'release')
FIRST = os.path.join(TOP, 'crates', '{0}', 'out')
SIZES = ['small', 'medium', 'sparse', 'dense']
GROWTH = ['2-stations', '4-stations', '8-stations', '16-stations', '3-visits', '6-visits', '12-visits']
TURNS = 10
RUNS = 101


def build():
    environment = dict(os.environ, CARGO_TARGET_DIR=os.path.join(TOP, 'target', 'bench'),
                       STRAKEWHIP_LIB=os.path.join(TOP, 'crates', 'strakewhip', 'out'))
    for folder, own in (('reference', None), ('bench', environment)):
        subprocess.run(['cargo', 'build', '--release', '--offline', '--quiet'], cwd=os.path.join(TOP, folder), env=own,
                       check=True)


def lines(*words):
    return subprocess.run([BUILT, *words], check=True, capture_output=True, text=True).stdout.split('\n')[:-1]


def instructions(words, given=None, within=None):
    """What a command takes, whole; or what a function and those that it calls take, and how often it is called."""
    with tempfile.TemporaryDirectory() as folder:
        profile = os.path.join(folder, 'profile')
        command = ['valgrind', '--tool=callgrind', f'--callgrind-out-file={profile}', *words]
        with open(given or os.devnull, 'rb') as source:
            told = subprocess.run(command, stdin=source, capture_output=True, check=True).stderr.decode()
        if within is None:
            return int(re.search(r'Collected : (\d+)', told).group(1))
        tree = subprocess.run(['callgrind_annotate', '--threshold=100', '--tree=caller', '--inclusive=yes', profile],
                              capture_output=True, text=True).stdout
        calls = re.findall(r'([\d,]+) \([^)]*\)\s+<[^\n]*\((\d[\d,]*)x\)[^\n]*(?=(?:\n[^\n]*<[^\n]*)*\n[^\n]*\*[^\n]*' +
                           re.escape(within) + ')', tree)
        return sum(int(c.replace(',', '')) for c, _ in calls), sum(int(n.replace(',', '')) for _, n in calls)


def of_call(call, size, side):
    """Of one turn: several turns less none, by their count."""
    words = [BUILT, 'turns', call, size, side]
    return (instructions([*words, str(TURNS)]) - instructions([*words, '0'])) / TURNS


def short(count):
    return f'{count / 1e6:.2f} M' if count >= 1e6 else f'{count / 1e3:.1f} k' if count >= 1e3 else f'{count:.0f}'


def row(*cells):
    print('| ' + ' | '.join(str(cell) for cell in cells) + ' |')


def head(*cells):
    row(*cells)
    row(*['---'] * len(cells))


def beside(own, other):
    """What it takes, and its ratio to what the other takes."""
    return short(own) if other is None else f'{short(own)} ({own / other:.2f})'


def programs(folder):
    head('Program', *SIZES)
    for program in ('shift', 'inspect'):
        cells = []
        for size in SIZES:
            given = os.path.join(folder, f'{size}.{program}')
            own = instructions([os.path.join(FIRST.format(program), program)], given)
            cells.append(beside(own, instructions([os.path.join(SECOND, program)], given)))
        row(f'`{program}`', *cells)


def calls():
    head('Call', *SIZES)
    second = {'edit', 'delete-train', 'run', 'findings', 'area', 'pair', 'read', 'write', 'project', 'network'}
    for name, what in (line.split(' ', 1) for line in lines('calls')):
        cells = []
        for size in SIZES:
            other = of_call(name, size, 'reference') if name in second else None
            cells.append(beside(of_call(name, size, 'library'), other))
        row(f'`{name}`: {what}', *cells)


def turned(name, size, function):
    """What a function takes within one turn of a call of the library."""
    words = [BUILT, 'turns', name, size, 'library']
    took, _ = instructions([*words, str(TURNS)], within=function)
    before, _ = instructions([*words, '0'], within=function)
    return (took - before) / TURNS


def tests():
    """Calls under a network that is read, and the test of the sheets within them.

    An edit asks once what refuses the network, for the test of its sheets. The others ask twice: for their own order of
    refusals, and for the test.
    """
    head('Call', *SIZES)
    for name, asked in (('edit', 1), ('divide', 2), ('merge', 2)):
        cells = []
        for size in SIZES:
            whole = of_call(name, size, 'library') - of_call('network', size, 'library')
            refusal = turned(name, size, 'network::Network::check') / asked
            tested = turned(name, size, 'sheet::test::sheet_under') + refusal
            cells.append(f'{short(whole)}, {short(tested)} ({whole / tested:.2f})')
        row(f'`{name}`', *cells)


def growth():
    """With the stations, each with 24 visits; and with the visits at each of sixteen stations."""
    head('Call', *GROWTH)
    for name in ('edit', 'run', 'divide', 'merge', 'findings', 'area', 'read', 'write', 'project'):
        row(f'`{name}`', *(short(of_call(name, size, 'library')) for size in GROWTH))


def insertions():
    """What a visit put in takes beyond the same call refused with 8, and an insertion that copies the page."""
    def turn(place, side):
        words = [BUILT, 'insertion', place, side]
        return (instructions([*words, str(TURNS)]) - instructions([*words, '0'])) / TURNS
    head('Insertion', 'records moved', 'bytes moved', 'the call', 'beyond a refused one', 'copying the page', 'its bytes')
    refused, nothing = turn('there', 'library'), turn('there', 'nothing')
    for place, moved in (('front', 23), ('middle', 12), ('end', 0)):
        call, page = turn(place, 'library'), turn(place, 'page')
        row(place, moved, 16 * moved, short(call), short(call - refused), short(page - nothing), 2 * 512)


def wall(folder):
    head('Program, ms', *SIZES)
    for program in ('shift', 'inspect'):
        cells = []
        for size in SIZES:
            given = os.path.join(folder, f'{size}.{program}')
            middle = []
            for where in (FIRST, SECOND):
                rounds = []
                for _ in range(RUNS):
                    with open(given, 'rb') as source:
                        began = time.perf_counter()
                        subprocess.run([os.path.join(where.format(program), program)], stdin=source, stdout=subprocess.DEVNULL)
                        rounds.append(1000 * (time.perf_counter() - began))
                middle.append(statistics.median(rounds))
            cells.append(f'{middle[0]:.2f} / {middle[1]:.2f}')
        row(f'`{program}`', *cells)
    print()
    head('Call, us', *SIZES)
    found = {}
    for line in lines('times'):
        size, name, own, other = line.split()
        found.setdefault(name, {})[size] = f'{own} / {other}' if other != '-' else own
    for name, cells in found.items():
        row(f'`{name}`', *(cells[size] for size in SIZES))


def main():
    build()
    head('Size', 'stations', 'lines', 'edits', 'visits', 'relations', 'findings')
    for line in lines('sizes'):
        row(*line.split())
    with tempfile.TemporaryDirectory() as folder:
        lines('files', folder)
        print()
        programs(folder)
        print()
        calls()
        print()
        tests()
        print()
        growth()
        print()
        insertions()
        if '--times' in sys.argv[1:]:
            print()
            wall(folder)


if __name__ == '__main__':
    main()
