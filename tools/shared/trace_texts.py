#!/usr/bin/env python3
"""Makes traces of texts of histories, in the two forms of docs/LOCKTRACE.md, "Sorting a trace".

    tools/shared/trace_texts.py FILE words|json

writes the steps of a text of histories in an order in which they can have happened: one of each key in turn, without indexes.
tools/hand/hostile_traces, tools/hand/large_traces and tools/gate/compare_traces use it. It reads legal texts only.
"""

import itertools
import json
import pathlib
import sys

TOP = pathlib.Path(__file__).resolve().parent.parent.parent


def keys_of(text):
    """The keys of a text of histories in their order, each with its steps: lines without key and index."""
    keys = {}
    for line in text.decode('ascii').splitlines()[1:]:
        key, _, step = line.split(' ', 2)
        keys.setdefault(key, []).append(step)
    return keys


def text_of(keys):
    """The text of histories of these keys and steps."""
    lines = [f'{key} {index} {step}\n' for key in sorted(keys) for index, step in enumerate(keys[key], 1)]
    return ''.join(['locks 2\n', *lines]).encode()


def in_turn(keys):
    """Each step with its key: one of each key in turn."""
    pairs = [[(key, step) for step in steps] for key, steps in keys.items()]
    return [pair for turn in itertools.zip_longest(*pairs) for pair in turn if pair]


def as_words(key, step):
    return f'{key} {step}'


def as_json(key, step):
    made_by, rest = step.split(' ', 1)
    call, rest = rest.split(' = ')
    reply, _, lets = rest.partition(' let ')
    line = {'key': key, 'pass': int(made_by), 'call': call, 'reply': reply}
    return json.dumps(line | ({'let': lets.split(' ')} if lets else {}))


FORMS = {'words': as_words, 'json': as_json}


def trace_of(keys, form):
    return ''.join(FORMS[form](key, step) + '\n' for key, step in in_turn(keys)).encode()


# The longest text that is cut at every byte.
LONGEST = 4096


def stored_texts():
    """Each legal text of histories in examples/ and docs/traces/ that is not long, by its name."""
    texts = {}
    for path in sorted((TOP / 'examples').glob('*.stdout')):
        output = path.read_bytes()
        texts[path.stem] = output[output.index(b'locks 2\n'):]
    for path in sorted((TOP / 'docs' / 'traces').glob('*.histories')):
        texts[path.stem] = path.read_bytes()
    return {name: text for name, text in texts.items() if len(text) <= LONGEST}


if __name__ == '__main__':
    sys.stdout.buffer.write(trace_of(keys_of(pathlib.Path(sys.argv[1]).read_bytes()), sys.argv[2]))
