"""The replay test: see `run` beside this file."""
import os
import random
import select
import subprocess
import sys
import tempfile
import time

import cases
import model

ROOT = os.path.dirname(os.path.dirname(os.path.dirname(os.path.abspath(__file__))))
PROGRAM = os.path.abspath(os.environ.get('REPLAY', os.path.join(ROOT, 'replay')))
SAMPLE_ARGUMENTS = ('3', '1200', '60')
# a run that takes longer hangs
SECONDS = 120


class Test:
    def __init__(self):
        self.ran = self.failed = 0

    def holds(self, what, expected, found, data=b''):
        """One comparison; where it fails, all that is needed to see why."""
        self.ran += 1
        if expected == found:
            return
        self.failed += 1
        print(f'replay test: FAILED: {what}')
        if data:
            with tempfile.NamedTemporaryFile(prefix='replay-', suffix='.pages', delete=False) as file:
                file.write(data)
            print(f'  input: {len(data)} bytes, in {file.name}: {data[:60].hex()}{"..." if len(data) > 60 else ""}')
        for name, value in ('expected', expected), ('found', found):
            print(f'  {name}: {shortened(repr(value))}')


def shortened(text):
    return text if len(text) < 1500 else f'{text[:700]} ... {text[-700:]}'


def shown(words):
    return ' '.join(w if len(w) < 40 else f'{w[:12]}..({len(w)} digits)' for w in words)


def run(words, data=b'', **how):
    """Status, standard output and standard error of a run."""
    if 'stdin' not in how:
        how['input'] = data
    done = subprocess.run([PROGRAM, *words], stdout=how.pop('stdout', subprocess.PIPE), stderr=subprocess.PIPE, timeout=SECONDS, **how)
    return done.returncode, done.stdout, done.stderr


def expected(words, data, reading=model.Reading()):
    return model.replay([os.fsencode(w) for w in words], data, reading)


def told_apart(files):
    """Each wrong reading is seen by a case: without that a case is worth nothing."""
    test = Test()
    outputs = [(words, data, expected(words, data)) for words, data in files]
    for wrong in model.Reading.WRONG:
        reading = model.Reading(wrong)
        seen = any(expected(words, data, reading) != right for words, data, right in outputs)
        test.holds(f'no case tells the reading "{wrong}" from the right one', True, seen)
    return test


def files(test, all_named, many, seed):
    for name, words, data, literal in all_named:
        right = expected(words, data)
        if literal is not None:
            test.holds(f'{name}: the model', literal, right, data)
        test.holds(f'{name}: {shown(words)}', (0, right, b''), run(words, data), data)
    rng = random.Random(seed)
    for n in range(many):
        words, data = cases.random_file(rng)
        test.holds(f'random file {n} of seed {seed}: {shown(words)}', (0, expected(words, data), b''), run(words, data), data)


def long_files(test):
    for pages, words in (200000, ('17', '4093', '604021')), (100000, ('1', '0', '1')):
        data = cases.long_file(pages, pages)
        test.holds(f'{pages} pages: {shown(words)}', (0, expected(words, data), b''), run(words, data), data)


def wrong_arguments(test):
    for words, number in cases.wrong_arguments():
        right = expected(words, b'')
        literal = b'refused %d\n' % number if number else b'pages 0 skipped 0 subframes 0 dsms 0 silent 0 tail 0\n'
        test.holds(f'the model: {shown(words)}', literal, right)
        test.holds(f'arguments: {shown(words)}', (0, right, b''), run(words, b''))
        if number:
            # on a refusal only `refused N` is written, whatever there is to read
            test.holds(f'arguments: {shown(words)}, with pages', (0, right, b''), run(words, cases.GOOD * 15))
    test.holds('an argument that is not UTF-8', (0, b'refused 7\n', b''), run(['3', '1200', os.fsdecode(b'\xff\xfe')]))


def first_line(child):
    """The first line that a running program writes; nothing where it writes none."""
    ready, _, _ = select.select([child.stdout], [], [], 20)
    return child.stdout.readline() if ready else b''


def odd_pieces(test, data, words):
    """The same bytes, whatever the sizes in which they arrive."""
    right = expected(words, data)
    rng = random.Random(5)
    for sizes in ([1], [7], [29], [30], [31], [449, 2], [4095, 1], [65535, 3], [rng.randrange(1, 200) for _ in range(50)]):
        part = data[:sum(sizes) * 40] if sizes != [1] else data[:500]
        child = subprocess.Popen([PROGRAM, *words], stdin=subprocess.PIPE, stdout=subprocess.PIPE, stderr=subprocess.PIPE)
        at = n = 0
        while at < len(part):
            child.stdin.write(part[at:at + sizes[n % len(sizes)]])
            child.stdin.flush()
            at += sizes[n % len(sizes)]
            n += 1
            if n < 60:
                time.sleep(0.001)
        out, err = child.communicate(timeout=SECONDS)
        test.holds(f'pieces of {sizes[:4]} bytes', (0, expected(words, part), b''), (child.returncode, out, err), part)
    # a line is there as soon as its pages are, before the input ends
    child = subprocess.Popen([PROGRAM, *words], stdin=subprocess.PIPE, stdout=subprocess.PIPE)
    child.stdin.write(data[:455])
    child.stdin.flush()
    test.holds('the first line before the end of the input', right.splitlines(True)[0], first_line(child))
    child.communicate(timeout=SECONDS)


def failures(test, data, words):
    """What cannot be read or written is said, with a status, and not taken for the end of the input."""
    def failed(what, done, out):
        status, stdout, said = done
        test.holds(f'{what}: the status', True, status not in (0, None))
        test.holds(f'{what}: one line on standard error', True, said.startswith(b'replay: ') and said.count(b'\n') == 1)
        test.holds(f'{what}: standard output', out, stdout or b'')

    folder = os.open(ROOT, os.O_RDONLY)
    failed('a folder as input', run(words, stdin=folder), b'')
    os.close(folder)
    with open('/dev/full', 'wb') as full:
        failed('a full disk', run(words, data, stdout=full), b'')
        failed('a full disk, at a refusal', run(['0', '0', '0'], data, stdout=full), b'')
    for what, script in ('a closed output', '"$@" >&-'), ('a closed input', '"$@" <&-'), ('both closed', '"$@" <&- >&-'):
        done = subprocess.run(['sh', '-c', script, 'sh', PROGRAM, *words], input=data, capture_output=True, timeout=SECONDS)
        failed(what, (done.returncode, done.stdout, done.stderr), b'')
    # a pipe that nobody reads: `replay .. | true`
    ends = os.pipe()
    os.close(ends[0])
    with os.fdopen(ends[1], 'wb') as unread:
        failed('a pipe that nobody reads', run(words, data, stdout=unread), b'')
    # one whose reader leaves after the first line
    child = subprocess.Popen([PROGRAM, *words], stdin=subprocess.PIPE, stdout=subprocess.PIPE, stderr=subprocess.PIPE)
    child.stdin.write(data[:450])
    child.stdin.flush()
    first_line(child)
    child.stdout.close()
    try:
        child.stdin.write(data[450:])
        child.stdin.close()
    except BrokenPipeError:
        pass
    said = child.stderr.read()
    failed('a reader that leaves', (child.wait(timeout=SECONDS), b'', said), b'')


def contents(*names):
    with open(os.path.join(ROOT, *names), 'rb') as file:
        return file.read()


def sample(test, name):
    """A sample and its lines: it is what samples/make makes, and the program writes what the model does."""
    made = subprocess.run([sys.executable, os.path.join(ROOT, 'samples', 'make'), name], capture_output=True, timeout=SECONDS).stdout
    data = contents('samples', f'{name}.pages')
    test.holds(f'samples/{name}.pages is what samples/make makes', True, made == data)
    right = expected(SAMPLE_ARGUMENTS, data)
    test.holds(f'the sample {name}', (0, right, b''), run(SAMPLE_ARGUMENTS, data), data)
    return data, right.splitlines()


def samples(test):
    data, night = sample(test, 'night')
    test.holds('the night completes a KROOT and a PKR', [b'D 2 104', b'D 12 169'], [l for l in night if l.startswith(b'D')])
    silence, silent = sample(test, 'silent')
    test.holds('the silent sample is the example of document 02', [b'pages 15 skipped 0 subframes 0 dsms 0 silent 1 tail 0'], silent)
    test.holds('`rt ci` runs the silent sample', (silence, silent),
               (contents('crates', 'replay', 'stdin'), contents('crates', 'replay', 'stdout').splitlines()))
    readme = contents('README.md')
    for line in night[:2] + [b'D 2 104', b'D 12 169', night[-1]] + silent:
        test.holds(f'the README shows the line {line.decode()}', True, b'    ' + line + b'\n' in readme)
    return data


def main():
    many, seed = (int(w) for w in (sys.argv[1:] + ['150', '1'][len(sys.argv) - 1:])[:2])
    all_named = list(cases.named())
    rng = random.Random(seed)
    apart = told_apart([(words, data) for _, words, data, _ in all_named] + [(words, b'') for words, _ in cases.wrong_arguments()]
                       + [cases.random_file(rng) for _ in range(20)])
    test = Test()
    data = samples(test)
    files(test, all_named, many, seed)
    long_files(test)
    wrong_arguments(test)
    odd_pieces(test, data, SAMPLE_ARGUMENTS)
    failures(test, data, SAMPLE_ARGUMENTS)
    print(f'replay test: {test.ran} checks, {test.failed} failed; {apart.ran} wrong readings, {apart.failed} not told apart')
    sys.exit(1 if test.failed or apart.failed else 0)


if __name__ == '__main__':
    main()
