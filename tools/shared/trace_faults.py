"""Fault injection of the proved program locktrace. The head of tools/hand/hostile_traces says what is tried."""

import collections
import json
import os
import re
import resource
import signal
import subprocess
import sys
import tempfile
import threading

from injection import HAND, KINDS, TOP, built
from trace_texts import FORMS, keys_of, stored_texts, text_of, trace_of

FAULTY = os.path.join(TOP, 'docs', 'traces', 'a-writer-that-passes.faulty')

# The first faulty line of that text, and its fault.
FAULT = (4, 'WrongReply')

# How a command ends if nothing is refused: with this status and this line on standard error.
LEGAL = (0, b'')
REFUSED = (1, f'locktrace: line {FAULT[0]}: {FAULT[1]}\n'.encode())

CHECK_OF_FILE = 'check {folder}/text'

# A trace whose waits are right, and what is left open if its last line is left out.
WAITS = (b'a 9 acquire 9 10.0 = taken\na 1 visit 1.1 1 10.0 w = wait\n1 asked 1.1\na 9 finish 9 = freed let 1.1\n1 told 1.1\n'
         b'a 1 visit 1.2 1 10.0 w = pass\n')
UNTOLD = (1, b'locktrace: at the end, wait 1.1 is open: it was told in line 5\n')

# A command line, its input, and how it is to end. In the words, {folder} is a folder of the run's own: it has the input as the file
# `text`, and the program may make the file `picture` in it. A command that does not name `text` gets the input on standard input.
Trial = collections.namedtuple('Trial', 'words text ending')

# How a run ended: the status, standard output, the picture's file, standard error, and what else it left in its folder.
Ran = collections.namedtuple('Ran', 'status out picture err left')


# How many bytes a key has at most.
MOST_KEY_BYTES = 64


def all_keys():
    """The keys of all stored texts, with their texts' names before them, cut where a key would be too long."""
    return {f'{name}/{key}'[:MOST_KEY_BYTES]: steps for name, text in stored_texts().items() for key, steps in keys_of(text).items()}


def trials():
    """Each command, from standard input and from a file, on a legal text and on a faulty one."""
    text, faulty = text_of(all_keys()), open(FAULTY, 'rb').read()
    words, lines = trace_of(all_keys(), 'words'), trace_of(all_keys(), 'json')
    key = 'a-key-from-hand-to-hand/orders/7'
    rows = [
        ('sort', words, LEGAL),
        ('sort --json {folder}/text', lines, LEGAL),
        ('sort --memory 1 --temporary {folder} {folder}/text', words, LEGAL),
        ('sort --memory 2K --temporary {folder} --json', lines, LEGAL),
        ('check', text, LEGAL),
        (CHECK_OF_FILE, text, LEGAL),
        ('check', faulty, REFUSED),
        ('audit', WAITS, LEGAL),
        ('audit {folder}/text', WAITS, LEGAL),
        ('audit', WAITS[:WAITS.rindex(b'a 1')], UNTOLD),
        ('explain {folder}/text', text, LEGAL),
        ('explain {folder}/text', faulty, REFUSED),
        ('show', text, LEGAL),
        (f'show {{folder}}/text --key {key} --from 2 --to 9', text, LEGAL),
        ('show', faulty, REFUSED),
        (f'picture --key {key}', text, LEGAL),
        (f'picture {{folder}}/text --key {key} --html -o {{folder}}/picture', text, LEGAL),
        ('--help', b'', LEGAL),
        ('sort --help', b'', LEGAL),
    ]
    return [Trial(*row) for row in rows]


def run_trial(run, trial, **refused):
    """Runs a trial in a new folder. Returns how it ended, and how much memory, reads and writes it asked for."""
    with tempfile.TemporaryDirectory() as folder:
        file, picture = os.path.join(folder, 'text'), os.path.join(folder, 'picture')
        with open(file, 'wb') as it:
            it.write(trial.text)
        words = [word.format(folder=folder) for word in trial.words.split(' ')]
        status, out, err, counts = run([built('locktrace'), *words], b'' if file in words else trial.text, **refused)
        drawn = open(picture, 'rb').read() if os.path.exists(picture) else b''
        return Ran(status, out, drawn, err, sorted({*os.listdir(folder)} - {'text', 'picture'})), counts


# What `explain` says if the second reading of a faulty file fails.
NOT_READ_AGAIN = b'no explanation: read a second time, the file failed or had changed\n'

# How the message of a failed temporary file begins; its folder comes after it.
TEMPORARY = b'cannot use a temporary file in '


def is_as_documented(trial, kind, is_last, ran, whole):
    """Whether a run ended as docs/LOCKTRACE.md says if something of this kind was refused, the last of its kind or not. `whole` is how it
    ends otherwise. A short write changes nothing, of refused memory a smaller piece may be enough, and a check of a file reads a piece
    once more."""
    if ran == whole and (kind in ('refuse_memory', 'short_write') or (kind, trial.words) == ('refuse_read', CHECK_OF_FILE)):
        return True
    if kind == 'refuse_write' and is_last and whole.err:
        return ran == whole._replace(err=b'')  # the write of the message itself
    is_prefix = whole.out.startswith(ran.out) and whole.picture.startswith(ran.picture)
    has_nothing = not ran.out and not ran.picture
    command = trial.words.split(' ')[0]
    if (command, kind) == ('explain', 'refuse_read') and whole.status == 1:
        verdict = whole.out[:whole.out.index(b'\n') + 1]  # the second reading failed
        if ran == whole._replace(out=verdict + NOT_READ_AGAIN):
            return True
    endings = {
        'refuse_memory': [(4, b'memory', command == 'show')],
        'refuse_read': [(5, b'cannot read ', command == 'show'), (5, TEMPORARY, False)],
        'refuse_write': [(5, b'cannot write ', True), (5, TEMPORARY, False)],
    }
    for status, message, may_be_prefix in endings.get(kind, []):
        if (ran.status, ran.left) == (status, []) and ran.err.startswith(b'locktrace: ' + message) and ran.err.count(b'\n') == 1:
            may_end_so = message != TEMPORARY or '--temporary' in trial.words
            return may_end_so and (is_prefix if may_be_prefix else has_nothing)
    return False


def said_of(ran):
    return f'status {ran.status}, {len(ran.out)} bytes, {ran.err!r}, left {ran.left}'


def refuse_in_traces(report, shim, lanes):
    totals, faults = collections.Counter(), []
    for trial in trials():
        whole, counts = run_trial(shim.run, trial)
        is_counted = counts[0] and counts[2] and (counts[1] or not trial.text)
        if (whole.status, whole.err) != trial.ending or whole.left or not is_counted:
            faults.append(f'{trial.words}: without a refusal: {said_of(whole)}, {counts} allocations, reads and writes')
        for kind, count in [*zip(KINDS, counts), ('short_write', counts[2])]:
            ended = lanes.map(lambda n: (n, run_trial(shim.run, trial, **{kind: n})[0]), range(1, count + 1))
            faults += [f'{trial.words}: {kind} {n}: {said_of(ran)}' for n, ran in ended
                       if not is_as_documented(trial, kind, n == count, ran, whole)]
            totals[kind] += count
    said = f"{totals['refuse_memory']} allocations, {totals['refuse_read']} reads and {totals['refuse_write']} writes"
    report.tell(f"locktrace: {said}, each refused once, and {totals['short_write']} writes that took one byte", faults)


def plainly(words, text, **how):
    """Runs a program as Shim.run does, with nothing refused."""
    ran = subprocess.run(words, input=text, capture_output=True, timeout=120, **how)
    return ran.returncode, ran.stdout, ran.stderr, None


def to_full_device(words, text):
    with open('/dev/full', 'wb') as full:
        ran = subprocess.run(words, input=text, stdout=full, stderr=subprocess.PIPE, timeout=120)
    return ran.returncode, b'', ran.stderr, None


def write_to_full_device(report):
    """Each command with standard output on a full device, and a picture that is written to one."""
    faults, tried = [], 0
    for trial in trials():
        if '{folder}/picture' in trial.words:
            run, trial = plainly, trial._replace(words=trial.words.replace('{folder}/picture', '/dev/full'))
        elif (trial.words, trial.ending) in (('check', REFUSED), ('audit', UNTOLD)):
            continue  # a check or an audit that refuses has no output
        else:
            run = to_full_device
        ran, _ = run_trial(run, trial)
        tried += 1
        target = b'/dev/full' if '/dev/full' in trial.words else b'standard output'
        if ran != Ran(5, b'', b'', b'locktrace: cannot write %s: no space is left\n' % target, []):
            faults.append(f'{trial.words}, {trial.ending[1]!r}: status {ran.status}, {ran.err!r}')
    report.tell(f'locktrace: {tried} commands that write to a full device', faults)


def limit_files(size, is_killed):
    """Has files of this process grow to so many bytes at most. A write beyond fails, or kills the process."""
    signal.signal(signal.SIGXFSZ, signal.SIG_DFL if is_killed else signal.SIG_IGN)
    resource.setrlimit(resource.RLIMIT_FSIZE, (size, size))
    resource.setrlimit(resource.RLIMIT_CORE, (0, 0))


def in_small_folder(words, text):
    """Runs a program that takes SMALL for a folder: a file system of one page, for this process alone. Names that are left in it come
    behind the output."""
    script = 'mount -t tmpfs -o size=4k none "$0" && { "$@"; status=$?; ls -A "$0"; exit $status; }'
    with tempfile.TemporaryDirectory() as small:
        words = [small if word == 'SMALL' else word for word in words]
        return plainly(['unshare', '--mount', 'sh', '-c', script, small, *words], text)


def in_limited_folder(size, is_killed):
    return lambda words, text: plainly(words, text, preexec_fn=lambda: limit_files(size, is_killed))


# Files of so many bytes at most, the memory for lines, and whether the sort can do its work. With memory for one line the first files
# have up to 100 bytes, and the one that is merged from them has some 3,000.
LIMITS = [(0, '1', False), (10, '1', False), (100, '1', False), (1000, '1', False), (0, '8K', False), (100, '8K', False),
          (100000, '1', True), (0, '1M', True)]


def fill_folders(report):
    """Sorts whose temporary files cannot be made, or cannot grow."""
    keys = all_keys()
    full = Ran(5, b'', b'', b'', [])
    killed = Ran(-signal.SIGXFSZ, b'', b'', b'', [])
    whole = Ran(0, text_of(keys), b'', b'', [])
    rows = [('{folder}/absent', '1', plainly, full), ('/dev/null', '1', plainly, full)]
    for size, memory, suffices in LIMITS:
        rows.append(('{folder}', memory, in_limited_folder(size, False), whole if suffices else full))
        rows.append(('{folder}', memory, in_limited_folder(size, True), whole if suffices else killed))
    can_mount = subprocess.run(['unshare', '--mount', 'true'], capture_output=True).returncode == 0
    if can_mount:
        rows += [('SMALL', memory, in_small_folder, full) for memory in ('1', '8K')]
    faults = []
    for number, (folder, memory, run, expected) in enumerate(rows):
        trial = Trial(f'sort --memory {memory} --temporary {folder}', trace_of(keys, 'words'), None)
        ran, _ = run_trial(run, trial)
        if expected is full and ran.err.startswith(b'locktrace: ' + TEMPORARY) and ran.err.count(b'\n') == 1:
            ran = ran._replace(err=b'')
        elif expected is full:
            faults.append(f'row {number}, {trial.words}: no temporary file is named')
        if ran != expected:
            faults.append(f'row {number}, {trial.words}: {said_of(ran)}')
    report.tell(f"locktrace: {len(rows)} sorts whose temporary folder is absent, limited{' or full' if can_mount else ''}", faults)


def first_fault(front, fault):
    """The number and the fault of the first faulty line in this prefix of a text, or None. `fault` is that of the whole text."""
    lines = front.count(b'\n')
    if not lines:
        return 1, 'Header'
    if fault and lines >= fault[0]:
        return fault
    return None if front.endswith(b'\n') else (lines + 1, 'Shape')


class Cutter:
    """Gives the programs prefixes of a text, from a file for each thread too."""

    def __init__(self, folder):
        self.folder = folder

    def file_of(self, text):
        file = os.path.join(self.folder, f'text-{threading.get_ident()}')
        with open(file, 'wb') as it:
            it.write(text)
        return file

    def answer(self, words, text=b''):
        return plainly([built('locktrace'), *words], text)[:3]

    def is_text_right(self, text, table, fault, n):
        """Whether all commands answer the first n bytes of a text as documented. `table` is what `show` writes of the whole text."""
        front = text[:n]
        file, found = self.file_of(front), first_fault(front, fault)
        steps = (found[0] if found else front.count(b'\n') + 1) - 2
        report = b'' if found else b'ok %d keys %d steps\n' % (len(keys_of(front)), steps)
        verdict = f'line {found[0]}: {found[1]}' if found else ''
        status, err = (1, f'locktrace: {verdict}\n'.encode()) if found else LEGAL
        by_lockrun = plainly([built('lockrun'), 'check'], front)[:3]
        explained = self.answer(['explain', file])
        begin = verdict.encode() + b'\n    ' + front.split(b'\n')[found[0] - 1] + b'\n' if found else report
        return (
            by_lockrun == (status, report, err.replace(b'locktrace', b'lockrun'))
            and self.answer(['check'], front) == self.answer(['check', file]) == (status, report, err)
            and (explained[0], explained[2]) == (status, err)
            and explained[1].startswith(begin)
            and self.is_table_right(self.answer(['show', file]), table, max(steps, 0), status, err)
        )

    def is_table_right(self, shown, table, steps, status, err):
        """Whether `show` wrote the rows of so many steps, and ended as `check` does."""
        lines = table.splitlines(True)
        rows = [at for at, line in enumerate(lines) if re.match(rb' *\d', line)]
        return shown == (status, b''.join(lines[:rows[steps - 1] + 1]) if steps else b'', err)

    def is_trace_right(self, trace, form, n):
        """Whether the first n bytes of a trace are sorted, or refused for their last line."""
        front = trace[:n]
        words = ['sort', *['--json'] * (form == 'json'), *['--memory', '1', '--temporary', self.folder] * (n % 2)]
        if not front.endswith(b'\n') and front:
            last = front.count(b'\n') + 1
            return self.answer(words, front) == (1, b'', f'locktrace: line {last}: Shape\n'.encode())
        expected = {}
        for line in trace_lines(front, form):
            expected.setdefault(line[0], []).append(line[1])
        return self.answer(words, front) == (0, text_of(expected), b'')


def trace_lines(front, form):
    """The key and the step of each line of a trace."""
    for line in front.decode('ascii').splitlines():
        if form == 'words':
            yield line.split(' ', 1)
        else:
            it = json.loads(line)
            lets = ' '.join([' let', *it['let']]) if 'let' in it else ''
            yield it['key'], f"{it['pass']} {it['call']} = {it['reply']}{lets}"


def cut_traces(report, lanes, folder):
    """Each text, and the traces of its steps, cut at every byte."""
    cutter, faults, tried = Cutter(folder), [], 0

    def cut(name, is_right, length):
        nonlocal faults, tried
        ended = lanes.map(lambda n: (n, is_right(n)), range(length + 1))
        faults += [f'{name}: {n} bytes' for n, is_well in ended if not is_well]
        tried += length + 1

    texts = [(name, text, None) for name, text in stored_texts().items()]
    for name, text, fault in [*texts, (os.path.basename(FAULTY), open(FAULTY, 'rb').read(), FAULT)]:
        table = cutter.answer(['show'], text)[1]
        cut(name, lambda n: cutter.is_text_right(text, table, fault, n), len(text))
    for name, text, _ in texts:
        for form in FORMS:
            trace = trace_of(keys_of(text), form)
            cut(f'{name}, sorted from {form}', lambda n: cutter.is_trace_right(trace, form, n), len(trace))
    report.tell(f'locktrace: texts and traces cut at each of {tried} places', faults if tried else ['no texts'])


def compare_verdicts(report, tool, count):
    words = [sys.executable, os.path.join(HAND, tool), '--count', str(count)]
    ran = subprocess.run(words, capture_output=True, text=True)
    lines = ran.stdout.splitlines() or ['']
    report.tell(f'{tool}: {lines[-1]}', [] if ran.returncode == 0 else [*lines[-5:-1], ran.stderr[-300:]])


def try_traces(report, shim, lanes, texts):
    """All parts. Programs that are not built are one fault."""
    missing = [name for name in ('lockrun', 'locktrace') if not os.path.exists(built(name))]
    if missing:
        report.tell(f"{' and '.join(missing)}: not built", ['run rt ci'])
        return
    refuse_in_traces(report, shim, lanes)
    write_to_full_device(report)
    fill_folders(report)
    with tempfile.TemporaryDirectory() as folder:
        cut_traces(report, lanes, folder)
    for tool in ('same_verdicts', 'same_waits'):
        compare_verdicts(report, tool, texts)
