"""Runs a program with one request refused or its requests counted, and reports what was tried. tools/hand/hostile,
tools/hand/hostile_traces and tools/gate/count_requests use it."""

import fcntl
import os
import subprocess

HERE = os.path.dirname(os.path.abspath(__file__))
TOP = os.path.dirname(os.path.dirname(HERE))
HAND = os.path.join(TOP, 'tools', 'hand')

# What can be refused, in the order in which Shim.run counts the requests.
KINDS = ('refuse_memory', 'refuse_read', 'refuse_write')


def built(crate, tests=False):
    """The program of a crate, or its tests."""
    return os.path.join(TOP, 'crates', crate, 'out', crate + ('_tests' if tests else ''))


def filled_pipe(text):
    """The end of a pipe to read from. The pipe has the whole text from the start, so how often a program reads from it does not
    depend on when the text comes."""
    reading, writing = os.pipe()
    fcntl.fcntl(writing, fcntl.F_SETPIPE_SZ, max(len(text), 1))
    os.write(writing, text)
    os.close(writing)
    return reading


class Shim:
    """Runs programs with one request refused, or with their requests counted."""

    def __init__(self, folder):
        self.library = os.path.join(folder, 'refuse.so')
        source = os.path.join(HERE, 'refuse.c')
        subprocess.run(['cc', '-O1', '-shared', '-fPIC', '-o', self.library, source, '-ldl'], check=True)

    def _told(self, words, text, settings):
        """Returns the status, standard output, standard error, and the numbers that the library told."""
        read_end, write_end = os.pipe()
        settings = {'LD_PRELOAD': self.library, 'TELL': str(write_end), **settings}
        stdin = filled_pipe(text)
        process = subprocess.Popen(words, env={**os.environ, **settings}, pass_fds=[write_end], stdin=stdin,
                                   stdout=subprocess.PIPE, stderr=subprocess.PIPE)
        os.close(write_end)
        os.close(stdin)
        try:
            out, err = process.communicate(timeout=120)
        except subprocess.TimeoutExpired:
            process.kill()
            out, err = process.communicate()
        with os.fdopen(read_end) as told:
            return process.returncode, out, err, [int(word) for word in told.read().split()]

    def run(self, words, text=b'', **refused):
        """Returns the status, standard output, standard error, and how much memory, reads and writes were asked for."""
        settings = {name.upper(): str(number) for name, number in refused.items()}
        status, out, err, counts = self._told(words, text, settings)
        return status, out, err, counts[-3:] or [0, 0, 0]

    def count(self, words, beginning):
        """Returns the status, standard output, standard error, and how many requests for memory there were before each write that
        begins so."""
        status, out, err, counts = self._told(words, b'', {'TELL_AT': beginning})
        return status, out, err, counts[:-3]


class Report:
    """Prints what each part tried, and counts the parts."""

    def __init__(self):
        self.passed = self.failed = 0

    def tell(self, what, faults):
        print(f"{'FAILED' if faults else 'passed'}: {what}", flush=True)
        for fault in faults[:5]:
            print(f'    {fault}')
        self.passed, self.failed = self.passed + (not faults), self.failed + bool(faults)

    def end(self):
        """Prints the counts, and returns the exit status."""
        print(f'{self.passed} passed, {self.failed} failed')
        return 1 if self.failed else 0
