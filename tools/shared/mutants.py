"""The mutants of the repository, and the record of those that the gate does not try. tools/gate/mutants and tools/hand/mutants use it.

A mutant is a file NAME.edit: a line `file: src/..`, and then pairs of lines `old: TEXT` and `new: TEXT`, where the file has each old
text once. The mutants of crates/CRATE/must-fail are tried by `rt ci`. Those of crates/CRATE/mutants stand by record: the file `refused`
there has a line for each, with the function whose contract refused it, the clause, and a sum over both and what the contract means by:

- the mutant itself;
- the crate's sources and definitions, and the statements of its lemmas. A proof of a lemma is left out: the meaning of a contract
  does not depend on how it is proved;
- of each crate below it the definitions, and the sources without the bodies of functions: types and contracts.

Comments that have lines of their own are left out everywhere, and so is the toolchain.
"""

import functools
import hashlib
import os
import pathlib
import re
import shutil
import subprocess
import tempfile

from unproved import CRATES, Fault, TOP, below, kit, lines_of_crates

HEAD = '# mutant, the function that refused it, the clause, and a sum: tools/shared/mutants.py. tools/hand/mutants writes this file.\n'

# What a contract of a function is written after.
CLAUSE = re.compile(r'\b(?:requires|ensures|ghost)\*?(?:\s+[\w-]+)?\s*:?\s*$')
TOKEN = re.compile(r'//[^\n]*|b?"(?:[^"\\]|\\.)*"|b?\'(?:[^\'\\\n]|\\[^\n]{1,9}?)\'|\bfn\b|[{}()\[\];]', re.DOTALL)
OWN_LINE = {'.rt': re.compile(r'^[ \t]*//.*\n', re.M), '.antt': re.compile(r'^[ \t]*--.*\n', re.M)}
UNFOLDED = re.compile(r'^(?:abbrev|unfoldable)\s+(?:pub\s+)?(\S+)', re.M)
BODY_OF_PROOF = re.compile(r'(\S+)(?:\s[^=:\n]*)?\s=(?:\s|$)')

# What rattle says of a function that is not proved for a reason of its own. It says which goal that is where it refuses an answer of the
# function, or in a note above the function's line; or else it refuses a lemma that the function's proof cites.
NOT_PROVED = re.compile(r'^fn (\S+): (?:not proved|no proof: (?!it calls ))', re.M)
ANSWER = re.compile(r'^(?:\./)?proofs/(\S+)/\w+\.antt:\d+:\d+: error: `([^`]+)`:', re.M)
LEMMA = re.compile(r'^(?:\./)?proofs/\S+:\d+:\d+: error: `([^`]+)`:', re.M)
NOTE = re.compile(r'^note: \S+?:\d+:\d+: .*?\(`([^`]+)`\)|^fn (\S+): ', re.M)
# A proof that cites what the mutant took away says nothing of a contract.
ONLY_A_NAME = re.compile(r'has no field|is not in scope|has no `|was not admitted')


def mutants(crate, folder='mutants'):
    """The names of a crate's mutants that stand by record, or of those in another folder."""
    return sorted(path.stem for path in (CRATES / crate / folder).glob('*.edit'))


def edited(crate, name):
    """The texts that a mutant changes, by their path in the crate."""
    path, old, texts = '', None, {}
    for line in (CRATES / crate / 'mutants' / f'{name}.edit').read_text(encoding='utf-8').split('\n'):
        if line.startswith('file: '):
            path = line[6:].strip()
        elif line.startswith('old: '):
            old = line[5:]
        elif line.startswith('new:'):
            new = line[4:].removeprefix(' ')
            if path not in texts:
                if not (CRATES / crate / path).is_file():
                    raise Fault(f'there is no file {path}')
                texts[path] = (CRATES / crate / path).read_text(encoding='utf-8')
            if not old or texts[path].count(old) != 1:
                raise Fault(f'an old text is not in {path} once')
            texts[path] = texts[path].replace(old, new)
            old = None
    if not texts:
        raise Fault('it has no old and new text')
    return texts


def without_bodies(text):
    """A source without the bodies of its functions."""
    kept, since, last, depth, state = [], 0, 0, 0, None
    for token in TOKEN.finditer(text):
        word = token.group()
        if word == 'fn' and state is None:
            state, depth, last = 'signature', 0, token.end()
        elif state == 'signature':
            if word in '([':
                depth += 1
            elif word in ')]':
                depth -= 1
            elif word == ';' and depth == 0:
                state = None
            elif word == '{' and depth == 0:
                state, depth = ('clause' if CLAUSE.search(text[last:token.start()]) else 'body'), 1
                if state == 'body':
                    kept.append(text[since:token.end()])
        elif state in ('clause', 'body') and word in '{}':
            depth += 1 if word == '{' else -1
            if depth == 0:
                if state == 'body':
                    since = token.start()
                state, last = ('signature' if state == 'clause' else None), token.end()
    return ''.join([*kept, text[since:]])


def statements(text):
    """A file of proofs without the proofs of its lemmas: what the keyword `abbrev` or `unfoldable` declares stands whole."""
    unfolded = set(UNFOLDED.findall(text))
    items = re.split(r'^(?=\S)', text, flags=re.M)
    is_proof = lambda found: found is not None and found.group(1) not in unfolded
    return ''.join(item for item in items if not is_proof(BODY_OF_PROOF.match(item)))


def files(crate, part):
    """The texts of a part of a crate, without the comments that have lines of their own."""
    for path in sorted((CRATES / crate / part).rglob('*')):
        if path.suffix in OWN_LINE:
            yield str(path.relative_to(CRATES)), OWN_LINE[path.suffix].sub('', path.read_text(encoding='utf-8'))


def total(pairs):
    found = hashlib.sha256()
    for name, text in pairs:
        found.update(name.encode() + b'\0' + text.encode() + b'\0')
    return found.hexdigest()


@functools.cache
def sum_of_contracts(crate):
    """A sum over what another crate knows of this one."""
    sources = [(name, without_bodies(text)) for name, text in files(crate, 'src')]
    return total([*sources, *files(crate, 'specs')])


@functools.cache
def sum_of_crate(crate):
    """A sum over what a verdict on a mutant of the crate depends on, but for the mutant."""
    proofs = [(name, statements(text)) for name, text in files(crate, 'proofs')]
    ours, theirs = below(crate, lines_of_crates())
    lower = [(name, sum_of_contracts(name)) for name in sorted(ours)] + [(name, '') for name in sorted(theirs)]
    return total([*files(crate, 'src'), *files(crate, 'specs'), *proofs, *lower])


def sum_of(crate, name, function, clause):
    """The sum that the record of a mutant has."""
    text = (CRATES / crate / 'mutants' / f'{name}.edit').read_text(encoding='utf-8')
    return total([(name, text), (function, clause), (crate, sum_of_crate(crate))])[:16]


def fits(crate, name, line):
    """Whether a record fits the sources."""
    function, clause, found = line
    return found == sum_of(crate, name, function, clause)


def records(crate):
    """The lines of the crate's record: of each mutant the function, the clause and the sum. A mutant that has two lines is a fault."""
    file, found = CRATES / crate / 'mutants' / 'refused', {}
    for line in file.read_text(encoding='utf-8').splitlines() if file.exists() else []:
        if line.startswith('#'):
            continue
        words = line.split(' ')
        if len(words) != 4 or words[0] in found:
            raise Fault(f'a line of mutants/refused is not a record, or the second of its mutant: {line}')
        found[words[0]] = tuple(words[1:])
    return found


def write(crate, found):
    """Writes the crate's record anew, at once."""
    file = CRATES / crate / 'mutants' / 'refused'
    new = file.with_suffix('.new')
    new.write_text(HEAD + ''.join(' '.join([name, *found[name]]) + '\n' for name in sorted(found)), encoding='utf-8')
    os.replace(new, file)


def goals(lines):
    """The first goal of each function of which rattle names one."""
    found, last = {}, None
    for path, goal in ANSWER.findall(lines):
        found.setdefault(path.replace('/', '::'), goal)
    for goal, function in NOTE.findall(lines):
        if function and last:
            found.setdefault(function.partition('::')[2], last)
        last = None if function else last or goal
    return found


def judged(status, output):
    """The function and the clause that refused a mutant, by what `rattle check` said of it. Raises a Fault if nothing did."""
    last = output.rstrip('\n').rpartition('\n')[2]
    if status == 0:
        raise Fault('NOT REFUSED: it is still proved')
    lines = '\n'.join(line for line in output.split('\n') if not ONLY_A_NAME.search(line))
    functions, known = NOT_PROVED.findall(output), goals(lines)
    refused = [(name, known[name.partition('::')[2]]) for name in functions if name.partition('::')[2] in known]
    refused = refused or list(zip(functions, LEMMA.findall(lines)))
    if status != 1 or not re.match('logic=not-proved|only=', last) or not refused:
        raise Fault(f'NOT TRIED: the check ended with status {status}: {output.strip()[-600:]}')
    return refused[0]


def library(crate):
    return CRATES / crate / 'out' / 'rlib' / f'{crate}.rlib'


def words_of_check(crate, more):
    """The words of `rattle check` for a crate, over the libraries that were built below it."""
    tools, rows = kit(), lines_of_crates()
    ours, _ = below(crate, rows)
    given = [(it, library(it) if it in rows else tools / 'rlibs' / f'{it}.rlib') for it in dict.fromkeys(['std', *rows[crate]])]
    root = 'src/main.rt' if (CRATES / crate / 'src/main.rt').exists() else 'src/lib.rt'
    words = [tools / 'bin' / 'rattle', 'check', '--crate-name', crate, root]
    words += [word for name, path in given for word in ('--extern', f'{name}={path}')]
    words += [word for folder in [tools / 'rlibs', *(library(it).parent for it in ours)] for word in ('-L', f'dependency={folder}')]
    words += ['--antt-project', tools / 'rattle' / 'logic' / 'antt-project.json', '--logic-built', tools / 'logic_built']
    return [*words, '--jobs', '1', '--links', f'{crate}=', *(['--crate-type', 'staticlib'] if is_static(crate) else []), *more]


def is_static(crate):
    return re.search(rf'^{crate} (?:\S+ )*staticlib\b[^:]*:', (TOP / 'crates.txt').read_text(), re.M) is not None


def checked(crate, texts, more):
    """Checks a copy of the crate with these texts in place of its own. Returns the status and the output."""
    with tempfile.TemporaryDirectory(prefix='mutant-') as name:
        room = pathlib.Path(name)
        for part in ('src', 'specs', 'proofs'):
            if (CRATES / crate / part).is_dir():
                shutil.copytree(CRATES / crate / part, room / part)
        for path, text in texts.items():
            (room / path).write_text(text, encoding='utf-8')
        ran = subprocess.run(words_of_check(crate, more), cwd=room, stdin=subprocess.DEVNULL, stdout=subprocess.PIPE, stderr=subprocess.STDOUT,
                             check=False)
        return ran.returncode, ran.stdout.decode(errors='replace')
