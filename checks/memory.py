#!/usr/bin/env python3
"""Runs the built program with one allocation refused, for one after another: `memory.py [--most N] [--jobs N] PROGRAM [FILE ..]`.

The inputs are the rows of checks/rows but for `limits`, or those of the files that are named; then `make 7`, and a replay of what
it writes. A program takes its memory of the C library's `malloc` and `realloc`. A small library, compiled here with `cc` and put in
front of that by LD_PRELOAD, counts all calls that take memory, and refuses the one of a given number. After each refusal the status
has to be 6, and what was written a prefix of the output without a refusal; or both are as they are without one, where the
allocation was none of the program's own. Of an input with more than N calls, the first N / 2 are refused, and others evenly after
them. Some runs of status 6 are made once more by valgrind, if it is there, which may report no memory that was let go.

PROGRAM is the program itself, as crates/mvpn/out/mvpn. This is no part of the gate. Prints what is other than it has to be, and
then 'N passed, M failed'.
"""

import argparse
import os
import pathlib
import shutil
import struct
import subprocess
import sys
import tempfile
from concurrent.futures import ThreadPoolExecutor

from rows import ROWS, Book, Row

LIBRARY = r'''
#define _GNU_SOURCE
#include <errno.h>
#include <fcntl.h>
#include <stdatomic.h>
#include <stdlib.h>
#include <string.h>
#include <sys/mman.h>
#include <sys/syscall.h>
#include <unistd.h>

extern void *__libc_malloc(size_t), *__libc_calloc(size_t, size_t), *__libc_realloc(void *, size_t), *__libc_memalign(size_t, size_t);

static _Atomic unsigned long *count;
static unsigned long refused;

/* Counts in the named program alone: valgrind is started by others. */
__attribute__((constructor)) static void begin(void) {
    char own[4096] = "";
    if (readlink("/proc/self/exe", own, sizeof own - 1) < 0 || strcmp(own, getenv("REFUSED_IN")))
        return;
    int file = open(getenv("REFUSED_COUNT"), O_RDWR);
    refused = strtoul(getenv("REFUSED_CALL"), NULL, 10);
    count = (void *)syscall(SYS_mmap, NULL, sizeof *count, PROT_READ | PROT_WRITE, MAP_SHARED, file, 0L);
    close(file);
}

static int refuses(void) {
    if (!count || atomic_fetch_add(count, 1) + 1 != refused)
        return 0;
    errno = ENOMEM;
    return 1;
}

void *malloc(size_t size) { return refuses() ? NULL : __libc_malloc(size); }

void *calloc(size_t number, size_t size) { return refuses() ? NULL : __libc_calloc(number, size); }

void *realloc(void *old, size_t size) { return size && refuses() ? NULL : __libc_realloc(old, size); }

void *memalign(size_t align, size_t size) { return refuses() ? NULL : __libc_memalign(align, size); }

void *aligned_alloc(size_t align, size_t size) { return memalign(align, size); }

int posix_memalign(void **place, size_t align, size_t size) {
    void *taken = memalign(align, size);
    if (!taken)
        return ENOMEM;
    *place = taken;
    return 0;
}

void *mmap(void *place, size_t size, int protection, int flags, int file, off_t offset) {
    return refuses() ? MAP_FAILED : (void *)syscall(SYS_mmap, place, size, protection, flags, file, offset);
}

void *mmap64(void *place, size_t size, int protection, int flags, int file, off_t offset) {
    return mmap(place, size, protection, flags, file, offset);
}
'''

VALGRIND = ['valgrind', '--quiet', '--leak-check=full', '--error-exitcode=99', '--soname-synonyms=somalloc=nouserintercepts']
NO_MEMORY = 6
# how many runs of status 6 of an input are made by valgrind, and of how many inputs of a file of rows
CHECKED, INPUTS = 4, 3


class Program:
    """The program, and the library that refuses."""

    def __init__(self, path, folder):
        self.path = os.path.realpath(path)
        self.folder = pathlib.Path(folder)
        source = self.folder / 'refuse.c'
        source.write_text(LIBRARY)
        self.library = self.folder / 'refuse.so'
        subprocess.run(['cc', '-O2', '-shared', '-fPIC', '-o', self.library, source], check=True)

    def run(self, row, number, front=()):
        """The status, the output and the number of calls, where the call of that number is refused; 0 refuses none."""
        with tempfile.NamedTemporaryFile(dir=self.folder) as counted:
            counted.write(bytes(8))
            counted.flush()
            names = {'LD_PRELOAD': self.library, 'REFUSED_IN': self.path, 'REFUSED_COUNT': counted.name, 'REFUSED_CALL': str(number)}
            ran = subprocess.run([*front, self.path, *row.words], input=row.input, capture_output=True, env={**os.environ, **names})
            return ran, struct.unpack('=Q', pathlib.Path(counted.name).read_bytes())[0]


def numbers(count, most):
    """The calls that are refused in turn."""
    if count <= most:
        return [*range(1, count + 1)]
    front, after = most // 2, most - most // 2
    return [*range(1, front + 1)] + [front + (count - front) * turn // after for turn in range(1, after + 1)]


def is_want(ran, usual):
    """Whether the run ended because memory ran out, as it has to."""
    return ran.returncode == NO_MEMORY and usual.stdout.startswith(ran.stdout)


def is_usual(ran, usual):
    return (ran.returncode, ran.stdout) == (usual.returncode, usual.stdout)


class Check:
    """The runs of all inputs, and what differs."""

    def __init__(self, program, given):
        self.program, self.most, self.jobs = program, given.most, given.jobs
        self.passed = self.failed = self.wants = 0

    def tell(self, is_right, said):
        self.passed += is_right
        self.failed += not is_right
        if not is_right:
            print(said)

    def refuse(self, row):
        """One run for each of the calls; answers those that ended because memory ran out."""
        usual, count = self.program.run(row, 0)
        turns = numbers(count, self.most)
        with ThreadPoolExecutor(self.jobs) as pool:
            runs = [*pool.map(lambda number: self.program.run(row, number)[0], turns)]
        wanting = [number for number, ran in zip(turns, runs) if is_want(ran, usual)]
        self.wants += len(wanting)
        for number, ran in zip(turns, runs):
            self.tell(is_want(ran, usual) or is_usual(ran, usual), f'{row.place}, call {number} of {count}: status {ran.returncode}')
        return wanting

    def leaks(self, row, wanting):
        """Some of these runs by valgrind."""
        for number in wanting[::max(1, len(wanting) // CHECKED)][:CHECKED]:
            ran, _ = self.program.run(row, number, VALGRIND)
            said = f'{row.place}, call {number}, by valgrind: status {ran.returncode}, {ran.stderr.decode()}'
            self.tell(ran.returncode == NO_MEMORY, said)


def made(program):
    """`make 7`, and the replay of what it writes."""
    make = Row('make 7', ['make', '7'])
    text, _ = program.run(make, 0)
    return [make, Row('the replay of make 7', ['replay'], text.stdout)]


def inputs(program, files):
    rows = [row for row in Book(sorted(ROWS.glob('*.txt'))).rows if row.by != 'reference']
    chosen = [row for row in rows if row.place.split('.txt')[0] in files or not files and not row.place.startswith('limits.')]
    return chosen if files else chosen + made(program)


def main():
    options = argparse.ArgumentParser(description='Runs the program with one allocation refused, for one after another.')
    options.add_argument('program', help='the built program')
    options.add_argument('--most', type=int, default=400, help='calls that are refused of one input')
    options.add_argument('--jobs', type=int, default=4)
    options.add_argument('files', nargs='*', help='names of files of rows, without .txt')
    given = options.parse_args()
    has_valgrind = shutil.which('valgrind') is not None
    if not has_valgrind:
        print('valgrind is not installed, so nothing was tried by it')
    with tempfile.TemporaryDirectory() as folder:
        check, tried = Check(Program(given.program, folder), given), {}
        for row in inputs(check.program, given.files):
            wanting, file = check.refuse(row), row.place.split('.txt')[0]
            if has_valgrind and wanting and tried.setdefault(file, 0) < INPUTS:
                tried[file] += 1
                check.leaks(row, wanting)
    print(f'{check.wants} runs ended for want of memory')
    print(f'{check.passed} passed, {check.failed} failed')
    return 1 if check.failed or not check.wants else 0


if __name__ == '__main__':
    sys.exit(main())
