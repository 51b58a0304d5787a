#!/usr/bin/env python3
"""Tries the built program on what only the system can show: python3 tools/try_system.py [PROGRAM]

No proof says what a real file, a pipe or a full device gives, which words the system hands over, or with which status a process
ends. Each case has the words, what stands on standard input, where standard output goes, and the status and the text that have to
come. `{folder}` in a word is the absolute path of the folder that the program runs in. The last line counts the cases.
"""
import json, os, resource, shutil, subprocess, sys, tempfile

WEB = b'''{"aeolus":1,"types":[{"name":"Db","initial":"off","states":[{"name":"off","next":["on"]},{"name":"on","provide":["sql"]}]},{"name":"Web","initial":"off","states":[{"name":"off","next":["run"]},{"name":"run","require":["sql"]}]}]}'''
PRINTED = b'''{"aeolus":1,"types":[{"initial":"off","name":"Db","states":[{"name":"off","next":["on"],"provide":[],"require":[]},{"name":"on","next":[],"provide":["sql"],"require":[]}]},{"initial":"off","name":"Web","states":[{"name":"off","next":["run"],"provide":[],"require":[]},{"name":"run","next":[],"provide":[],"require":["sql"]}]}]}\n'''
PLAN = b'''metis plan 1
instances 2 actions 5 dups 0
1 new 0 Db
2 move 0 off on
3 new 1 Web
4 bind sql 1 0 after 2
5 move 1 off run
end
'''



def universe_of_a_megabyte():
    """The canonical text of a universe whose one line is past 1 MB: 400 types of four states, of which each provides ten ports with
    long names."""
    long = 'x' * 48
    states = [[f'{long}_{kind:03}_{state}' for state in range(4)] for kind in range(400)]
    types = [{'initial': names[0], 'name': f'{long}_{kind:03}',
              'states': [{'name': name, 'next': names[at + 1:at + 2], 'provide': [f'{long}_{at}_{port}' for port in range(10)], 'require': []}
                         for at, name in enumerate(names)]}
             for kind, names in enumerate(states)]
    return json.dumps({'aeolus': 1, 'types': types}, separators=(',', ':')).encode() + b'\n'


# The most bytes of memory, with those of the program and the C library, where it is to run out.
SMALL = 6 << 20
LARGE = universe_of_a_megabyte()
assert len(LARGE) > 1_000_000

here = os.path.dirname(os.path.abspath(__file__))
program = os.path.abspath(sys.argv[1] if len(sys.argv) > 1 else os.path.join(here, '..', 'crates', 'metis', 'out', 'metis'))

# (what it shows, words, input, where the output goes, status, text)
cases = [
    ('a file', ['print', 'web.json'], b'', 'pipe', 0, PRINTED),
    ('a file, and then the input', ['replay', 'web.json', '-', 'Web:run'], PLAN, 'pipe', 0, b'good standing 2 actions 5\n'),
    ('a file by its absolute path', ['print', '{folder}/web.json'], b'', 'pipe', 0, PRINTED),
    ('an absolute path of which a part is a relative one', ['print', '{folder}/plans/../web.json'], b'', 'pipe', 0, PRINTED),
    ('files in folders', ['replay', 'plans/a universe.json', './plans/web.plan', 'Web:run'], b'', 'pipe', 0, b'good standing 2 actions 5\n'),
    ('a file in a folder that is not there', ['print', 'plan/web.json'], b'', 'pipe', 4, b'read fault 2\n'),
    ('a line past 1 MB, through pipes', ['print', '-'], LARGE, 'pipe', 0, LARGE),
    ('a line past 1 MB to a full device', ['print', '-'], LARGE, 'full', 5, b''),
    ('the input, and then a file', ['replay', '-', 'web.plan', 'Web:run'], WEB, 'pipe', 0, b'good standing 2 actions 5\n'),
    ('an empty input', ['print', '-'], b'', 'pipe', 3, b'bad universe U1\n'),
    ('a file whose name begins with a dash', ['print', '-x.json'], b'no JSON', 'pipe', 0, PRINTED),
    ('a file that is not there, though the input is', ['print', '-y.json'], WEB, 'pipe', 4, b'read fault 2\n'),
    ('a folder', ['print', 'folder'], b'', 'pipe', 4, b'read fault 2\n'),
    ('a file that may not be read', ['print', 'secret.json'], b'', 'pipe', 4, b'read fault 2\n'),
    ('the second file may not be read', ['replay', 'web.json', 'secret.json'], b'', 'pipe', 4, b'read fault 3\n'),
    ('a script from the input', ['sim', 'web.json', '-'], b'new 0 Db\nshow', 'pipe', 0, b'ok\ninstances 1 bindings 0\n0 Db:off\n'),
    ('the replies to a full device', ['sim', 'web.json', '-'], b'new 0 Db\nshow', 'full', 5, b''),
    ('turns from the input', ['crew', 'web.json', 'web.plan', '-'], b'1 1 0\t0\r\n1 7', 'pipe', 0, b'did 3\nwaits 4 2\ndid 1\ndid 2\ndid 4\nnobody\nprogress 4 of 5\n'),
    ('the answers to a full device', ['crew', 'web.json', 'web.plan', '-'], b'0', 'full', 5, b''),
    ('the third file may not be read', ['crew', 'web.json', 'web.plan', 'secret.json'], b'', 'pipe', 4, b'read fault 4\n'),
    ('a generated universe', ['load', '3'], b'', 'pipe', 0, b'load 3 pairs 24 targets 6 instances 9 actions 51 dups 3 good\n'),
    ('its line to a full device', ['load', '3'], b'', 'full', 5, b''),
    ('an explanation to a full device', ['why', 'web.json', 'Web:run'], b'', 'full', 5, b''),
    ('an explanation from the input', ['confirm', 'web.json', '-', 'Web:run'], b'metis why 1\nlacks Web:run\nlines 1\nWeb:run needs sql from Db:on\nend\n', 'pipe', 1, b'unfounded line 4\n'),
    ('the explanation may not be read', ['confirm', 'web.json', 'secret.json', 'Web:run'], b'', 'pipe', 4, b'read fault 3\n'),
    ('an empty file', ['print', 'empty.json'], b'', 'pipe', 3, b'bad universe U1\n'),
    ('a full device', ['plan', 'web.json', 'Web:run'], b'', 'full', 5, b''),
    ('a pipe that nobody reads', ['plan', 'web.json', 'Web:run'], b'', 'closed', 5, b''),
    ('output that is closed', ['plan', 'web.json', 'Web:run'], b'', 'none', 5, b''),
    ('memory that refuses: a document past 1 MB in 6 MB', ['print', '-'], LARGE, 'small', 6, b''),
    ('as much memory for a short one', ['print', 'web.json'], b'', 'small', 0, PRINTED),
    ('no words', [], b'', 'pipe', 2, b'bad word 1\n'),
    ('an empty word', ['print', ''], b'', 'pipe', 2, b'bad word 2\n'),
    ('a word that is not UTF-8 in the middle', ['plan', b'\xff', 'Db:off'], b'', 'pipe', 2, b'bad word 2\n'),
    ('a target that is not UTF-8', ['plan', 'web.json', 'Db:off', b'Db:\xff', 'Db:off'], b'', 'pipe', 2, b'bad word 4\n'),
    ('400 words', ['plan', 'web.json', *['Db:off'] * 398], b'', 'pipe', 2, b'bad word 259\n'),
    ('a word of 256 bytes', ['print', 'd' * 255 + '/', 'more'], b'', 'pipe', 2, b'bad word 3\n'),
    ('a word of 257 bytes', ['print', './' * 124 + '/web.json'], b'', 'pipe', 0, PRINTED),
    ('a word of 5,000 bytes', ['plan', 'web.json', 'Db:' + 'x' * 5000], b'', 'pipe', 2, b'bad word 3\n'),
    ('258 words of why', ['why', 'web.json'] + ['Db:on', 'port:sql'] * 128, b'', 'pipe', 0, b'attained\n'),
    ('259 words of why', ['why', 'web.json'] + ['Db:on'] * 257, b'', 'pipe', 2, b'bad word 259\n'),
    ('300 words', ['plan', 'web.json'] + ['Db:off'] * 298, b'', 'pipe', 2, b'bad word 259\n'),
    ('258 words', ['replay', 'web.json', 'web.plan'] + ['Db:on'] * 255, b'', 'pipe', 1, b'missing Db:on have 1 want 255\n'),
]


def run(folder, words, given, where):
    user = {'user': 'nobody', 'group': 'nogroup', 'extra_groups': []} if os.geteuid() == 0 else {}
    command = [os.path.join(folder, 'metis')] + [it.replace('{folder}', folder) if isinstance(it, str) else it for it in words]
    if where == 'full':
        with open('/dev/full', 'wb') as full:
            done = subprocess.run(command, input=given, stdout=full, cwd=folder, **user)
        return done.returncode, b''
    if where == 'closed':
        read, write = os.pipe()
        os.close(read)
        done = subprocess.run(command, input=given, stdout=write, cwd=folder, **user)
        os.close(write)
        return done.returncode, b''
    if where == 'none':
        done = subprocess.run(['sh', '-c', 'exec "$0" "$@" >&-'] + command, input=given, cwd=folder, **user)
        return done.returncode, b''
    limit = (lambda: resource.setrlimit(resource.RLIMIT_AS, (SMALL, SMALL))) if where == 'small' else None
    done = subprocess.run(command, input=given, stdout=subprocess.PIPE, cwd=folder, preexec_fn=limit, **user)
    return done.returncode, done.stdout


failed = 0
with tempfile.TemporaryDirectory() as folder:
    os.chmod(folder, 0o755)
    shutil.copy(program, os.path.join(folder, 'metis'))
    os.chmod(os.path.join(folder, 'metis'), 0o755)
    for name, content in [('web.json', WEB), ('-x.json', WEB), ('web.plan', PLAN), ('secret.json', WEB), ('empty.json', b'')]:
        with open(os.path.join(folder, name), 'wb') as file:
            file.write(content)
    os.chmod(os.path.join(folder, 'secret.json'), 0)
    os.mkdir(os.path.join(folder, 'folder'))
    os.mkdir(os.path.join(folder, 'plans'))
    for name, content in [('a universe.json', WEB), ('web.plan', PLAN)]:
        with open(os.path.join(folder, 'plans', name), 'wb') as file:
            file.write(content)
    for what, words, given, where, status, text in cases:
        got = run(folder, words, given, where)
        if got != (status, text):
            failed += 1
            print(f'FAILED: {what}: status {got[0]}, {got[1][:200]!r}, and not {status}, {text[:200]!r}')
print(f'{len(cases) - failed} passed, {failed} failed')
sys.exit(1 if failed else 0)
