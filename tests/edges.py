#!/usr/bin/env python3
"""The programs and the scripts of bin/ at the edges of a run: outputs and inputs that fail, short reads, signals, live use, bad lines and bad arguments.
Run from the repository's root after `tools/build`. Each trial prints a line; the exit status is 1 where one failed."""
import collections
import fcntl
import os
import pathlib
import select
import shutil
import signal
import subprocess
import sys
import tempfile
import time

WORKED = open('crates/ledger/stdin', 'rb').read()
HOUSE = open('examples/house.txt', 'rb').read()
failed = 0


def tell(name, good, what=''):
    global failed
    failed += not good
    print('ok  ' + name if good else 'BAD ' + name + ': ' + repr(what), flush=True)


def run(cmd, data=b'', **more):
    return subprocess.run(cmd, input=data, **{'stdout': subprocess.PIPE, 'stderr': subprocess.PIPE, **more})


def start(cmd, **more):
    return subprocess.Popen(cmd, **{'stdin': subprocess.PIPE, 'stdout': subprocess.PIPE, 'stderr': subprocess.PIPE, 'bufsize': 0, **more})


def pipe_that_does_not_wait(end):
    ends = os.pipe()
    fcntl.fcntl(ends[end], fcntl.F_SETFL, fcntl.fcntl(ends[end], fcntl.F_GETFL) | os.O_NONBLOCK)
    return ends


def drain(fd):
    out = b''
    while part := os.read(fd, 1 << 20):
        out += part
    return out


def give(p, data):
    """Writes an input and closes it; a program that has ended takes no more."""
    try:
        while data:
            data = data[p.stdin.write(data):]
        p.stdin.close()
    except BrokenPipeError:
        pass


def answer(p, size):
    """What is written within 20 seconds, up to a number of bytes."""
    out = b''
    until = time.monotonic() + 20
    while len(out) < size and select.select([p.stdout], [], [], max(0, until - time.monotonic()))[0]:
        part = os.read(p.stdout.fileno(), 65536)
        if not part:
            break
        out += part
    return out


def one_line(r, message):
    return r.returncode == 1 and message in r.stderr and r.stderr.count(b'\n') == 1


def fields_of(data):
    """The fields of an input: a tag, a length of 2 bytes and a value."""
    at = 0
    while at < len(data):
        end = at + 3 + int.from_bytes(data[at + 1:at + 3], 'big')
        yield data[at:end]
        at = end


# A program, its name in messages, the calls of an input, the text written for the input, what of it is written once so many calls are read, many small calls, and
# what is written where nothing can be read.
Program = collections.namedtuple('Program', 'cmd name calls whole after large nothing')


def by_lines(cmd, lines):
    """A program that writes so many lines for each call in turn, and more at the end."""
    whole = open('crates/%s/stdout' % cmd, 'rb').read()
    text = whole.splitlines(keepends=True)
    return Program(['bin/' + cmd], cmd.encode(), list(fields_of(WORKED)), whole, lambda k: b''.join(text[:sum(lines[:k])]), b'\0\0\0' * 80000, b'')


def by_calls(cmd, calls, one, nothing):
    """A program that writes a text for each call, and nothing more."""
    texts = [run(cmd, call).stdout for call in calls]
    return Program(cmd, b'fields', calls, b''.join(texts), lambda k: b''.join(texts[:k]), one * 20000, nothing)


PROGRAMS = [
    by_lines('ledger', [1] * 12),
    # CLOSE and FINISH, the last two calls, have the line of the requirement
    by_lines('explain', [2] * 10 + [3] * 2),
    # a text that cannot be read ends in a field that is cut off
    by_calls(['bin/fields'], HOUSE.splitlines(keepends=True), b'MOVE member 1\n', b'\0\xff\xffthe text could not be read to its end'),
    by_calls(['bin/fields', '--text'], list(fields_of(WORKED)), b'\x06\0\0', b''),
]


def outputs_that_fail(title, of):
    message, data = of.name + b': standard output: ', b''.join(of.calls)
    with open('/dev/full', 'wb') as full:
        r = run(of.cmd, data, stdout=full)
    tell(title + ' > /dev/full', one_line(r, message + b'No space left on device'), r)
    r = run(['sh', '-c', 'exec "$@" >&-', 'sh'] + of.cmd, data)
    tell(title + ' >&-', one_line(r, message + b'Bad file descriptor'), r)


def outputs_that_wait(title, of):
    message, data = of.name + b': standard output: ', b''.join(of.calls)
    # nobody reads until the program has ended: what is written is a front of the text, with nothing behind the hole
    read_end, write_end = pipe_that_does_not_wait(1)
    p = start(of.cmd, stdout=write_end)
    os.close(write_end)
    give(p, of.large + data)
    said = p.stderr.read()
    got = drain(read_end)
    os.close(read_end)
    whole = run(of.cmd, of.large + data).stdout
    tell(title + ', output that does not wait', p.wait() == 1 and said.startswith(message + b'Resource temporarily unavailable') and whole.startswith(got) and len(got) < len(whole), (p.returncode, said, len(got), len(whole)))
    p = start(of.cmd)
    p.stdout.close()
    give(p, of.large)
    said = p.stderr.read()
    tell(title + ', reader gone', p.wait() == 1 and said == message + b'Broken pipe (os error 32)\n', (p.returncode, said))


def inputs_that_fail(title, of):
    message = of.name + b': standard input: '
    folder = os.open('.', os.O_RDONLY)
    r = subprocess.run(of.cmd, stdin=folder, capture_output=True)
    os.close(folder)
    tell(title + ' < directory', one_line(r, message + b'Is a directory') and r.stdout == of.nothing, r)
    r = subprocess.run(['sh', '-c', 'exec "$@" <&-', 'sh'] + of.cmd, capture_output=True)
    tell(title + ' <&-', r.returncode == 1 and message + b'Bad file descriptor' in r.stderr and r.stdout == of.nothing, r)
    # the calls that were read are answered; what looks complete, the lines of the end, is not written
    read_end, write_end = pipe_that_does_not_wait(0)
    os.write(write_end, b''.join(of.calls))
    r = subprocess.run(of.cmd, stdin=read_end, capture_output=True)
    os.close(read_end)
    os.close(write_end)
    tell(title + ', input that does not wait', one_line(r, message + b'Resource temporarily unavailable') and r.stdout == of.after(len(of.calls)) + of.nothing, r)


def whole_inputs(title, of):
    data = b''.join(of.calls)
    r = run(of.cmd, data)
    tell(title, r.returncode == 0 and r.stderr == b'' and r.stdout == of.whole != b'', r)
    p = start(of.cmd)
    for byte in data:
        p.stdin.write(bytes([byte]))
        time.sleep(0.0005)
    p.stdin.close()
    out, said = p.stdout.read(), p.stderr.read()
    tell(title + ', one byte at a time', out == of.whole and said == b'' and p.wait() == 0, (out, said))


def live_use(title, of):
    data = b''.join(of.calls)
    # the answer to a call comes before the next is asked
    p = start(of.cmd)
    late = []
    for k, call in enumerate(of.calls):
        p.stdin.write(call)
        wanted = of.after(k + 1)[len(of.after(k)):]
        got = answer(p, len(wanted))
        if got != wanted:
            late.append((k, got))
    p.stdin.close()
    end, said = p.stdout.read(), p.stderr.read()
    tell(title + ', a pipe fed call by call', not late and end == of.whole[len(of.after(len(of.calls))):] and said == b'' and p.wait() == 0, (late, end, said))
    # an answer first, so that the signal finds the program running
    p = start(of.cmd)
    p.stdin.write(data)
    got = answer(p, 1)
    p.send_signal(signal.SIGTERM)
    p.wait(20)
    p.stdout.read()
    said = p.stderr.read()
    tell(title + ', TERM', p.returncode == 128 + signal.SIGTERM and got != b'' and said == b'', (p.returncode, got, said))


for of in PROGRAMS:
    title = ' '.join(of.cmd)
    outputs_that_fail(title, of)
    inputs_that_fail(title, of)
    whole_inputs(title, of)
    outputs_that_wait(title, of)
    live_use(title, of)

# ---- days: nothing is written before the input's end

DAYS = open('crates/expected/stdin', 'rb').read()
SHARES = open('crates/expected/stdout', 'rb').read()
EXPECTED = ['bin/expected', 'members', '0,2', 'units', '10']
for cmd, days in ((EXPECTED, [DAYS[:8], DAYS[8:]]), (EXPECTED + ['--text'], [b'1, 3\r\n', b'# no day\n', b'2,2'])):
    of = Program(cmd, b'expected', days, SHARES, lambda k: b'', b'', b'')
    title = ' '.join(of.cmd)
    outputs_that_fail(title, of)
    inputs_that_fail(title, of)
    whole_inputs(title, of)
for cmd, days, message in ((EXPECTED, DAYS[:15], b'day 2: declined by 1, the record is cut short\n'), (EXPECTED, b'\0\x98\x96\x81' + DAYS, b'day 1: declined by 5, a position is above 10000000\n'),
                           (EXPECTED + ['--text'], b'1,3\n2;2\n', b'line 2 column 2: expected a comma\n'), (['bin/expected', 'members', '0,2', 'units', '0'], DAYS, b'declined by 5, units are 1 to 1000\n')):
    r = run(cmd, days)
    tell('%s: %s' % (' '.join(cmd), message.decode().strip()), r.returncode == 1 and r.stdout == b'' and r.stderr == message, r)

# ---- questions about a case: nothing is written before the input's end

ASK = ['bin/ask', 'requirement']
REQUIREMENT = open('crates/ask/stdout', 'rb').read()
NO_CASE = b'ask: refused 2: there is no case\n'
CUT = b'ask: not answered, since the input ends within a field\n'
of = Program(ASK, b'ask', list(fields_of(WORKED)), REQUIREMENT, lambda k: b'', b'', b'')
outputs_that_fail(' '.join(ASK), of)
inputs_that_fail(' '.join(ASK), of)
whole_inputs(' '.join(ASK), of)
bad_head = bytes([1]) + WORKED[1:3] + bytes(int.from_bytes(WORKED[1:3], 'big'))
for what, data, message in (('no input', b'', NO_CASE), ('calls without a case', b'\x06\0\0\x0d\0\0', NO_CASE), ('a HEAD that is refused', bad_head, NO_CASE),
                            ('a field that is cut off', WORKED[:-1], CUT), ('a lone tag', WORKED + b'\x06', CUT), ('a HEAD that is cut off', WORKED[:10], CUT)):
    r = run(ASK, data)
    tell('bin/ask requirement, %s' % what, r.returncode == 1 and r.stdout == b'' and r.stderr == message, r)
# more than the buffer holds, in fields that are refused: short ones, and the longest that there are
for what, data in (('many fields', b'\0\0\0' * 80000), ('long fields', (b'\x63\xff\xff' + bytes(65535)) * 5)):
    r = run(ASK, data + WORKED + data)
    tell('bin/ask requirement, %s that are refused' % what, r.returncode == 0 and r.stdout == REQUIREMENT and r.stderr == b'', r)
for text in sorted(pathlib.Path('examples').glob('*.txt')):
    printed = [line.split()[-1] for line in text.with_suffix('.out').read_bytes().splitlines() if line.startswith(b'  requirement, at least 0')]
    r = run(ASK, run(['bin/fields', str(text)]).stdout)
    tell('bin/ask requirement, %s' % text, r.returncode == 0 and r.stderr == b'' and [r.stdout] == [b'requirement %s\n' % n for n in printed], (r, printed))

# an input that ends within a field is not taken for a whole case
r = run(['bin/explain'], WORKED[:-1])
tell('bin/explain, a field that is cut off', r.stdout.endswith(b'\nNot the whole case: the input ends within a field.\n'), r.stdout[-200:])

# ---- a bad line

MISTYPED = HOUSE.replace(b'units 5 price -0.20', b'unit 5 price -0.20')
MESSAGE = b'line 12 column 21: expected the key units'
lines = MISTYPED.split(b'\n')
before = run(['bin/fields'], b'\n'.join(lines[:11]) + b'\n').stdout
r = run(['bin/fields'], MISTYPED)
tell('bin/fields stops at a bad line', r.returncode == 1 and r.stderr == MESSAGE + b'\n' and r.stdout == before + b'\0\xff\xff' + MESSAGE, r)
short = run(['bin/ledger'], r.stdout).stdout.splitlines()
tell('bin/ledger of a text with a bad line', [l for l in short if l.startswith(b's ')][-1] == b's 0 1' and not any(l[:2] in (b'l ', b'm ') for l in short), short)
asked = run(ASK, r.stdout)
tell('bin/ask requirement, a text with a bad line', asked.returncode == 1 and asked.stdout == b'' and asked.stderr == CUT, asked)
r = run(['bin/explain'], r.stdout)
tell('bin/explain of a text with a bad line says so', b'cut off, tag 0' in r.stdout and b'FINISH' not in r.stdout.splitlines(), r.stdout)
r = run(['bin/run'], MISTYPED)
tell('bin/run of a text with a bad line', r.returncode == 1 and r.stdout == b'' and r.stderr.startswith(MESSAGE + b'\n') and r.stderr.count(b'\n') == 2, r)
r = run(['bash', '-c', 'set -o pipefail; bin/fields | cat'], MISTYPED)
tell('bin/fields in a pipe, with a bad line', r.returncode == 1 and r.stderr == MESSAGE + b'\n', r)
r = run(['bin/fields'], b' ' * 70000 + b'\nCLOSE\n')
tell('bin/fields, a long line', r.returncode == 1 and r.stderr.startswith(b'line 1 column 65537: '), r)

# ---- arguments and files

for script in ('ledger', 'explain', 'fields', 'run'):
    r = run(['bin/' + script, '--help'])
    tell('bin/%s --help' % script, r.returncode == 0 and r.stdout.startswith(b'usage: bin/' + script.encode()) and r.stderr == b'', r)
    for words in (['--unknown'], ['one', 'two']):
        r = run(['bin/' + script] + words)
        tell('bin/%s %s' % (script, ' '.join(words)), r.returncode == 2 and r.stdout == b'' and r.stderr.startswith(b'usage: bin/' + script.encode()), r)
    r = run(['bin/' + script, 'no-such-file'])
    tell('bin/%s no-such-file' % script, r.returncode == 2 and r.stdout == b'' and b'no-such-file' in r.stderr, r)
    file = 'examples/house.txt' if script in ('fields', 'run') else 'crates/ledger/stdin'
    r, s = run(['bin/' + script, file]), run(['bin/' + script], open(file, 'rb').read())
    tell('bin/%s %s' % (script, file), r.returncode == 0 and r.stderr == b'' and r.stdout != b'' and r.stdout == s.stdout, (r, s))
r = run(['bin/expected', '--help'])
tell('bin/expected --help', r.returncode == 0 and r.stdout.startswith(b'usage: bin/expected') and r.stderr == b'', r)
for words in ([], ['members', '0,2', 'units'], EXPECTED[1:] + ['--unknown'], EXPECTED[1:] + ['one', 'two']):
    r = run(['bin/expected'] + words, DAYS)
    tell('bin/expected %s' % ' '.join(words), r.returncode == 2 and r.stdout == b'' and r.stderr.startswith(b'usage: bin/expected'), r)
r = run(EXPECTED + ['no-such-file'])
tell('bin/expected, no-such-file', r.returncode == 2 and r.stdout == b'' and b'no-such-file' in r.stderr, r)
r = run(EXPECTED + ['crates/expected/stdin'])
tell('bin/expected crates/expected/stdin', r.returncode == 0 and r.stderr == b'' and r.stdout == SHARES, r)
r = run(['bin/ask', '--help'])
tell('bin/ask --help', r.returncode == 0 and r.stdout.startswith(b'usage: bin/ask') and r.stderr == b'', r)
for words in ([], ['--unknown'], ['requirement', '--unknown'], ['requirement', 'one', 'two']):
    r = run(['bin/ask'] + words, WORKED)
    tell('bin/ask %s' % ' '.join(words), r.returncode == 2 and r.stdout == b'' and r.stderr.startswith(b'usage: bin/ask'), r)
r = run(ASK + ['no-such-file'])
tell('bin/ask requirement no-such-file', r.returncode == 2 and r.stdout == b'' and b'no-such-file' in r.stderr, r)
r = run(ASK + ['examples'])
tell('bin/ask requirement, a directory', one_line(r, b'ask: standard input: Is a directory') and r.stdout == b'', r)
r = run(ASK + ['crates/ask/stdin'])
tell('bin/ask requirement crates/ask/stdin', r.returncode == 0 and r.stderr == b'' and r.stdout == REQUIREMENT, r)
USAGE = b'usage: ask requirement < FIELDS\n'
for words in ([''], ['margin'], ['requirements'], ['Requirement']):
    r = run(['bin/ask'] + words, WORKED)
    tell('bin/ask %s' % (words[0] or 'with an empty word'), r.returncode == 1 and r.stdout == b'' and r.stderr == USAGE, r)
for words in ([], ['x' * 100], ['requirement', 'requirement'], ['requirement', '']):
    # the input stays open, so that a program that reads it first does not end
    p = start(['target/bin/ask'] + words)
    try:
        p.wait(20)
    except subprocess.TimeoutExpired:
        p.kill()
    out, said = p.communicate()
    tell('the program ask %s' % ' '.join(words)[:30], p.returncode == 0 and out == b'' and said == USAGE, (p.returncode, out, said))
for words in (['--unknown'], ['--text', '--text'], ['x' * 100]):
    r = run(['target/bin/fields'] + words, HOUSE)
    tell('the program fields %s' % words[0][:9], r.stdout == b'' and r.stderr.startswith(b'usage: '), r)
for text in sorted(pathlib.Path('examples').glob('*.txt')):
    r = run(['bin/run', str(text)])
    tell('bin/run %s' % text, r.returncode == 0 and r.stderr == b'' and r.stdout == text.with_suffix('.out').read_bytes(), r)

# ---- answers that no example has

text = [b'HEAD pools 1 least 1 members 0 hedge 0.00 other 0.00 margin 0.00 fund 0.00 house 0.00', b'POOL pool 0 units 1 mark 0',
        b'MEMBER member 0 contribution 0.00 expected 0,0,0,0', b'ROUND reserves 0.00'] + [b'BID pool 0 member 0 units 1 price 0.00'] * 257
r = run(['bin/run'], b'\n'.join(text))
tell('bin/run, a bid too many', r.returncode == 0 and r.stdout.count(b'refused') == 1 and b'refused 7: no more bids are kept (bids kept 256); stage B' in r.stdout, r)
# a withdrawn bid still counts, and the last number is that of the last bid
r = run(['bin/run'], b'\n'.join(text[:-1] + [b'WITHDRAW member 0 bid 256', b'WITHDRAW member 0 bid 255', text[-1]]))
said = [line.split(b'; stage')[0] for line in r.stdout.splitlines()]
at = said.index(b'WITHDRAW member 0 bid 256')
tell('bin/run, a bid too many behind a withdrawn one', said[at - 1:at + 6] == [b'    accepted as bid 255', b'WITHDRAW member 0 bid 256', b'    refused 18: no bid has the number (bids are numbered 0 to 255)', b'WITHDRAW member 0 bid 255', b'    accepted', text[-1], b'    refused 7: no more bids are kept (bids kept 256)'], said[at - 1:at + 6])
rows = said[said.index(b'Bids of round 1') + 2:said.index(b'Loss') - 1]
tell('bin/run, a table of 256 bids', [row.split() for row in rows] == [[b'%d' % n, b'0', b'0', b'1', b'0.00', b'withdrawn' if n == 255 else b'yes'] for n in range(256)], rows)
r = run(['bin/run'], b'\n'.join(text[:4]))
tell('bin/run, a round without bids', b'\n\nBids of round 1\n    bid  member    pool     units          price  stands\n\nLoss\n' in r.stdout, r)
r = run(['bin/explain'], bytes([99, 0, 1, 5, 5, 0, 0, 14, 0, 5, 0, 0, 0, 0, 0, 15, 0, 2, 0, 0]))
reason = b'    refused 1: not a call: unknown tag or wrong length; no case\n'
tell('bin/explain, fields that are no calls', r.stdout == b'tag 99, bytes 1\n' + reason + b'tag 5, bytes 0\n' + reason + b'tag 14, bytes 5\n' + reason + b'tag 15, bytes 2\n' + reason + b'no case\n', r)

# the requirement is shown from the first unit that has left on, whichever pool it leaves
text = [b'HEAD pools 4 least 1 members 0 hedge 2.00 other 1.00 margin 9.00 fund 0.00 house 0.00'] + [b'POOL pool %d units 1 mark 0' % pool for pool in range(4)]
text += [b'MEMBER member 0 contribution 4.00 expected 0,0,0,0', b'SALE pool 3 member 0 price 0.50']
r = run(['bin/run'], b'\n'.join(text))
said = [line for line in r.stdout.splitlines() if line.startswith(b'    requirement ')]
tell('bin/run, the first unit leaves the last pool', said == [b'    requirement 2.50, prefunded 13.00'] and b'\n' + text[-1] + b'\n    accepted; stage S; open units 1 + 1 + 1 + 0 = 3\n' + said[0] + b'\n\n' in r.stdout, r)

# ---- a pool sold by agreement, where the case is not finished: the tables of no example

text = open('examples/agreed.txt', 'rb').read().splitlines()
r = run(['bin/run'], b'\n'.join(text[:text.index(b'CLOSE')]))
end = r.stdout[r.stdout.find(b'\nPools'):]
tell('bin/run, a pool sold by agreement before CLOSE', end == b'''
Pools, in units
   pool     units      open      sold  allocated     moved      torn
      0        10        10         0          0         0         0
      1         2         0         2          0         0         0
  total        12        10         2          0         0         0

Sold by agreement, counted as sold above
   pool     units  member          price         amount
      1         2       2        -100.00        -200.00
  total         2                               -200.00

Bids of round 1
    bid  member    pool     units          price  stands
      0       0       0         3         -20.00  yes
      1       1       0         4         -30.00  yes
      2       2       0         2         -70.00  yes

Loss
  hedge loss                                60.00
  other loss                                20.00
  less prices of units not open           -200.00
  requirement, at least 0                  280.00
  nothing is charged before FINISH

Members, 3
  member     won  expected   excess   contribution         called           paid           owes
       0       0         4       -4         150.00           0.00           0.00           0.00
       1       0         4       -4         100.00           0.00           0.00           0.00
       2       0         2       -2          50.00           0.00           0.00           0.00
  expected leaves out pools sold by agreement (pools 1; units 2)

Units held, by pool and price
  member    pool          price     units         amount
       2       1        -100.00         2        -200.00
  held                                  2        -200.00
  torn                                  0           0.00
  total, units not open                 2        -200.00
''', end)

# ---- what docs/USING.md quotes is what the examples print

def entries(lines):
    """The calls and tables of lines: each line that is not indented, with the indented ones behind it."""
    found = []
    for line in lines:
        if found and line.startswith(' '):
            found[-1].append(line)
        elif line:
            found.append([line])
    return found


def quotes(lines, least, *names):
    """Each call or table quoted stands in one of the examples, with all its lines."""
    printed = [entry for name in names for entry in entries(open('examples/%s.out' % name).read().splitlines())]
    strange = [entry for entry in entries(lines) if entry not in printed]
    tell('docs/USING.md quotes the examples ' + ', '.join(names), len(lines) > least and not strange, (len(lines), strange))


def indented(*starts):
    """The indented lines of the sections that start with these words, but for commands."""
    texts = [text for section in PAGE.split('\n## ') if section.startswith(starts) for text in section.split('```')[::2]]
    return [line[4:] for text in texts for line in text.splitlines() if line.startswith('    ') and not line.startswith('    bin/')]


PAGE = open('docs/USING.md').read()
quotes([line for block in PAGE.split('```')[1::2] for line in block.splitlines() if line], 80, 'one-default')
quotes(indented('2. A small pool sold first'), 20, 'agreed', 'sales')
quotes(indented('3. The auctions', '7. The tables'), 12, 'withdrawals', 'open-round')
quotes(indented('Watching the requirement'), 20, 'requirement')
quotes(indented('Odd units and cents'), 5, 'ties')
quotes(indented('What a member can learn of the reserves'), 9, 'reserves', 'other-reserves')

# ---- the scripts, with an `rt` that says what they are told

SAYS = '''#!/bin/sh
top=$PWD/../..
echo "$*" >> "$top/asked"
mkdir "$top/proving" || echo twice >> "$top/asked"
sleep 0.5
rmdir "$top/proving"
[ ! -e "$top/bad" ] || { echo "rt: the library lists did not build, so nothing above it was checked" >&2; exit 1; }
echo "fn lists::less: proved" >&2
echo "crate lists: modules loaded=0 checked=425" >&2
echo "logic=proved functions=16" >&2
mkdir -p out
printf '#!/bin/sh\\ncat\\n' > out/fields
chmod +x out/fields
'''
with tempfile.TemporaryDirectory() as folder:
    top = pathlib.Path(folder) / 'top'
    shutil.copytree('bin', top / 'bin')
    (top / 'crates.txt').write_text('# two crates\nlists:\nfields: lists io\nother: lists\n')
    (top / 'crates/fields/src').mkdir(parents=True)
    (top / 'crates/fields/src/main.rt').write_text('')
    (top / 'target/bin').mkdir(parents=True)
    (top / 'target/bin/fields').write_text('#!/bin/sh\ncat\n')
    (top / 'tools').mkdir()
    shutil.copy('tools/build', top / 'tools/build')
    (top / 'tools/rt').write_text(SAYS)
    for script in ('target/bin/fields', 'tools/rt'):
        (top / script).chmod(0o755)
    os.symlink(top / 'bin/fields', pathlib.Path(folder) / 'link')
    env = {**os.environ, 'PATH': '%s:%s' % (top / 'tools', os.environ['PATH'])}
    asked = top / 'asked'
    r = run([folder + '/link'], b'text', env=env, cwd='/')
    tell('bin/fields through a symbolic link', r.returncode == 0 and r.stdout == b'text', r)
    tell('bin/fields asks rt, and tells what was proved', r.stderr == b'1 of 2, lists\n' and asked.read_text() == 'run\n', (r, asked.read_text()))
    pair = [start([str(top / 'bin/fields')], env=env) for _ in range(3)]
    outs = [p.communicate(b'text') for p in pair]
    tell('three at once prove one after the other', all(out == b'text' for out, _ in outs) and asked.read_text() == 'run\n' * 4, (outs, asked.read_text()))
    (top / 'bad').touch()
    r = run([str(top / 'bin/fields')], b'text', env=env)
    tell('bin/fields runs nothing that is not proved', r.returncode == 2 and r.stdout == b'' and b'did not build' in r.stderr, r)
    r = run([str(top / 'bin/run')], b'text', env=env)
    tell('bin/run likewise', r.returncode == 2 and r.stdout == b'' and b'did not build' in r.stderr, r)

print('%d failed' % failed)
sys.exit(failed != 0)
