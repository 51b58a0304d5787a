#!/usr/bin/env python3
"""Refuses each allocation, each opening, each read and each write of the built program in turn: python3 tools/try_failures.py [PROGRAM]

The gate does not run this: no proof says what an allocator or a system gives. A small library is compiled with cc and loaded
before the C library (LD_PRELOAD). It counts the calls of one kind, and lets one of them fail, or move a single byte. A run in
which an allocation is refused has to end with want of memory (status 6) or with the command's own answer, and what it put has to
be a front of the command's text. One in which an opening or a read fails tells which file it was, one in which a write fails puts
whole lines, and one in which a read or a write moves a single byte answers as if nothing had happened. The last line counts the runs.
"""
import os, pathlib, re, subprocess, sys, tempfile

LIBRARY = r'''
#define _GNU_SOURCE
#include <dlfcn.h>
#include <errno.h>
#include <fcntl.h>
#include <stdarg.h>
#include <stdio.h>
#include <stdlib.h>
#include <string.h>
#include <unistd.h>

static const char *kind;     /* alloc, open, read, write: what is counted */
static int is_short;         /* whether that call moves one byte, and else fails */
static long wanted, made;    /* the number of the call, from 1, and how many were made */

__attribute__((constructor)) static void begin(void)
{
    const char *call = getenv("TRY_CALL");
    kind = getenv("TRY_KIND");
    is_short = getenv("TRY_SHORT") != NULL;
    wanted = call ? atol(call) : 0;
    made = 0;
}

__attribute__((destructor)) static void end(void)
{
    const char *to = getenv("TRY_COUNT");
    kind = NULL;
    if (to) {
        int file = open(to, O_WRONLY | O_CREAT | O_TRUNC, 0666);
        dprintf(file, "%ld\n", made);
        close(file);
    }
}

static int is_due(const char *which)
{
    return kind && !strcmp(kind, which) && ++made == wanted;
}

#define REAL(name) ((__typeof__(name) *) dlsym(RTLD_NEXT, #name))

void *__libc_malloc(size_t);
void *__libc_realloc(void *, size_t);

void *malloc(size_t size)
{
    if (is_due("alloc")) { errno = ENOMEM; return NULL; }
    return __libc_malloc(size);
}

void *realloc(void *old, size_t size)
{
    if (is_due("alloc")) { errno = ENOMEM; return NULL; }
    return __libc_realloc(old, size);
}

ssize_t read(int file, void *to, size_t size)
{
    if (is_due("read")) {
        if (is_short) return REAL(read)(file, to, size < 1 ? size : 1);
        errno = EIO;
        return -1;
    }
    return REAL(read)(file, to, size);
}

ssize_t write(int file, const void *from, size_t size)
{
    if (is_due("write")) {
        if (is_short) return REAL(write)(file, from, size < 1 ? size : 1);
        errno = ENOSPC;
        return -1;
    }
    return REAL(write)(file, from, size);
}

static int opened(int at, const char *name, int flags, int mode)
{
    return syscall(257, at, name, flags, mode);
}

int openat(int at, const char *name, int flags, ...)
{
    va_list rest;
    va_start(rest, flags);
    int mode = va_arg(rest, int);
    va_end(rest);
    if (is_due("open")) { errno = EMFILE; return -1; }
    return opened(at, name, flags, mode);
}

int open(const char *name, int flags, ...)
{
    va_list rest;
    va_start(rest, flags);
    int mode = va_arg(rest, int);
    va_end(rest);
    if (is_due("open")) { errno = EMFILE; return -1; }
    return opened(AT_FDCWD, name, flags, mode);
}
'''

TOP = pathlib.Path(__file__).resolve().parent.parent
DATA = TOP / 'crates' / 'metis_transcripts' / 'data'
TRANSCRIPTS = (DATA.parent / 'stdout').read_text()


def case_of(command):
    """What the first case of a command is given and what it answers, in the transcripts that the gate compares."""
    before, after = TRANSCRIPTS.split(f'\n$ metis {command}\n', 1)
    given = re.search(r'(?m)^(?:> .*\n)*\Z', before + '\n')[0]
    return re.sub(r'(?m)^> ', '', given), re.split(r'(?m)^status \d+$', after, maxsplit=1)[0]


# Each of the two needs the other in turn. One of them is doubled, and its double is deleted in the end.
PLAN = (DATA / 'crossed.plan').read_text()
SCRIPT, REPLIES = case_of('sim web.json -')
EVENTS = '''order 1
deliver 1
deliver 1
order 2
deliver 2
order 2
restart 0
quit
'''
ANSWERS = '''sent 1
executed 1 sent 2
again 1 sent 3
held 2 1
noted 1
sent 4
restarted 0
bad line
ran 1
executed 1 of 15 acknowledged 0
'''
HOSTS = '''metis hosts 1
host h1 3
host h2 2
size A 2
end
'''
SEATS = '''on 0 h1
on 1 h1
on 2 h2
placed 3 hosts 2
'''
# What is left of the plan is torn down.
TORN = '\n'.join(['metis plan 1', 'instances 3 actions 17 dups 0', *PLAN.splitlines()[2:17], '16 delete 0', '17 delete 1', 'end', ''])
# Nothing provides the disk that a database needs, which the server needs.
_, EXPLANATION = case_of('why three.json Web:run')
FILES = {
    **{name: (DATA / name).read_text() for name in ('web.json', 'crossed.json', 'three.json')},
    'three.why': EXPLANATION, 'crossed.plan': PLAN, 'web.script': SCRIPT, 'crossed.script': EVENTS, 'crossed.hosts': HOSTS}

# The words, the text and the status of each command.
COMMANDS = [
    (['plan', 'crossed.json', 'A:a3', 'B:b3'], PLAN, 0),
    (['replay', 'crossed.json', 'crossed.plan', 'A:a3', 'B:b3'], 'good standing 2 actions 15\n', 0),
    (['replay', 'crossed.json', 'crossed.plan', 'A:a3', 'B:b3', 'B:b0'], 'missing B:b0 have 0 want 1\n', 1),
    (['audit', 'crossed.json', 'crossed.plan', 'A:a3', 'B:b3'], 'justified instances 3 dups 1\n', 0),
    (['audit', 'crossed.json', 'crossed.plan', 'A:a3'], 'nocycle 1\n', 1),
    (['sim', 'web.json', 'web.script'], REPLIES, 0),
    (['control', 'crossed.json', 'crossed.plan', 'crossed.script'], ANSWERS, 0),
    (['rollout', 'crossed.json', 'crossed.plan'], TORN, 0),
    (['place', 'crossed.json', 'crossed.plan', 'crossed.hosts'], SEATS, 0),
    (['why', 'three.json', 'Web:run'], EXPLANATION, 1),
    (['why', 'web.json', 'Web:run', 'Db:on'], 'attained\n', 0),
    (['confirm', 'three.json', 'three.why', 'Web:run'], 'confirmed lacks Web:run\n', 0),
    (['confirm', 'three.json', 'three.why', 'Db:off'], 'lacksnone\n', 1),
]

# What the C library and the start of the program open and read by themselves goes to the real calls inside it, and is not counted.
KINDS = ['alloc', 'open', 'read', 'write']


class Tried:
    def __init__(self, folder, program, library):
        self.folder, self.program, self.library, self.runs, self.failed = folder, program, library, {}, 0

    def run(self, words, kind, call, is_short=False):
        """The status, what was put, and how many calls of the kind were made."""
        count = os.path.join(self.folder, 'count')
        given = {'LD_PRELOAD': self.library, 'TRY_KIND': kind, 'TRY_CALL': str(call), 'TRY_COUNT': count}
        done = subprocess.run([self.program] + words, cwd=self.folder, stdin=subprocess.DEVNULL, capture_output=True, timeout=600, env={**given, **({'TRY_SHORT': '1'} if is_short else {})})
        with open(count) as file:
            return done.returncode, done.stdout.decode(), int(file.read())

    def expect(self, what, words, call, got, is_right):
        self.runs[what] = self.runs.get(what, 0) + 1
        if not is_right:
            self.failed += 1
            print(f'FAILED: {" ".join(words)}, {what} {call}: status {got[0]}, {got[1][:200]!r}')

    def sweep(self, words, text, status):
        files = [at for at in range(1, len(words)) if words[at] in FILES]
        faults = [f'read fault {at + 1}\n' for at in files]
        lines = text.splitlines(keepends=True)
        fronts = [''.join(lines[:count]) for count in range(len(lines))]
        for kind in KINDS:
            plain = self.run(words, kind, 0)
            self.expect('untouched', words, 0, plain, plain[:2] == (status, text))
            for call in range(1, plain[2] + 1):
                got = self.run(words, kind, call)
                if kind == 'alloc':
                    right = got[:2] == (status, text) or (got[0] == 6 and text.startswith(got[1]))
                elif kind == 'write':
                    right = got[0] == 5 and got[1] in fronts
                else:
                    right = got[0] == 4 and got[1] in faults
                self.expect(f'refused {kind}', words, call, got, right)
                if kind in ('read', 'write'):
                    got = self.run(words, kind, call, True)
                    self.expect(f'{kind} of one byte', words, call, got, got[:2] == (status, text))


def main():
    here = os.path.dirname(os.path.abspath(__file__))
    program = os.path.abspath(sys.argv[1] if len(sys.argv) > 1 else os.path.join(here, '..', 'crates', 'metis', 'out', 'metis'))
    with tempfile.TemporaryDirectory() as folder:
        source, library = os.path.join(folder, 'failing.c'), os.path.join(folder, 'failing.so')
        for name, text in {**FILES, 'failing.c': LIBRARY}.items():
            with open(os.path.join(folder, name), 'w') as file:
                file.write(text)
        subprocess.run(['cc', '-O1', '-shared', '-fPIC', '-o', library, source, '-ldl'], check=True)
        tried = Tried(folder, program, library)
        for words, text, status in COMMANDS:
            tried.sweep(words, text, status)
    for what, count in sorted(tried.runs.items()):
        print(f'{what}: {count}')
        if not count or (what == 'untouched' and len(tried.runs) != 7):
            tried.failed += 1
            print('FAILED: a kind of call was never made')
    print(f'{sum(tried.runs.values()) - tried.failed} passed, {tried.failed} failed')
    return 1 if tried.failed else 0


sys.exit(main())
