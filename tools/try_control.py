"""Tries `control` of the built program on random scripts: python3 tools/try_control.py [PROGRAM [SEED]]

The gate does not run this: its cases are few, and these are many. For each plan, from 5 actions to some 10,000, scripts are drawn in which
orders are sent, repeated and asked for too early, packets are lost, come in any order and come again, the controller restarts, and some
lines are none. A script is as long as one may be, 65,536 bytes, which is some 5,000 lines; so there are several to a plan, of 10,000 lines
or more together. Each answer is worked out here, from the rules of docs/FORMATS.md, and what an action waits for is read from the plan's
text. What was executed is asked of `crew`: given the turns of the actors of the line `ran`, it has to answer that it did just these
actions, in this order. The last line counts the scripts; the status is 1 where an answer is not the one that has to come.
"""
import importlib.util, os, random, subprocess, sys, tempfile

HERE = os.path.dirname(os.path.abspath(__file__))
sys.dont_write_bytecode = True
found = importlib.util.spec_from_file_location('measure', os.path.join(HERE, '..', 'bench', 'measure.py'))
measure = sys.modules['measure'] = importlib.util.module_from_spec(found)
found.loader.exec_module(measure)
actors_and_waits, document, large_targets, large_types = measure.actors_and_waits, measure.document, measure.large_targets, measure.large_types

LIMIT, LINES = 65536, 10000
DATA = os.path.join(HERE, '..', 'crates', 'metis_transcripts', 'data')
EXAMPLES = os.path.join(HERE, '..', 'examples')
BAD_LINES = ['', 'order', 'order 1 2', ' order 1', 'order 01', 'order -1', 'deliver 4294967296', 'lose 1', 'quit']


class Bag:
    """Numbers, of which one may be drawn."""

    def __init__(self):
        self.items, self.place = [], {}

    def put(self, number):
        if number not in self.place:
            self.place[number] = len(self.items)
            self.items.append(number)

    def take(self, number):
        if number in self.place:
            at, last = self.place.pop(number), self.items.pop()
            if last != number:
                self.items[at], self.place[last] = last, at


class World:
    """The controller, the agents and the packets, over what each action waits for."""

    def __init__(self, waits):
        self.waits, self.after = waits, {}
        for number, row in enumerate(waits, 1):
            for other in row:
                self.after.setdefault(other, []).append(number)
        self.packets, self.acked, self.has, self.ran, self.done = [], [], set(), [], set()
        # Those that may be ordered, and of how many actions each still waits for an acknowledgement.
        self.left, self.ready = [len(row) for row in waits], Bag()
        for number, row in enumerate(waits, 1):
            if not row:
                self.ready.put(number)

    def send(self, kind, number):
        self.packets.append((kind, number))
        return f'sent {len(self.packets)}'

    def note(self, number):
        self.acked.append(number)
        self.has.add(number)
        self.ready.take(number)
        for other in self.after.get(number, []):
            self.left[other - 1] -= 1
            if not self.left[other - 1] and other not in self.has:
                self.ready.put(other)

    def forget(self, number):
        self.has.discard(number)
        if not self.left[number - 1]:
            self.ready.put(number)
        for other in self.after.get(number, []):
            self.left[other - 1] += 1
            self.ready.take(other)

    def order(self, number):
        if not 1 <= number <= len(self.waits):
            return f'no action {number}'
        if number in self.has:
            return f'acked {number}'
        for other in self.waits[number - 1]:
            if other not in self.has:
                return f'held {number} {other}'
        return self.send('order', number)

    def deliver(self, packet):
        if not 1 <= packet <= len(self.packets):
            return f'no packet {packet}'
        kind, number = self.packets[packet - 1]
        if kind == 'ack':
            if number in self.has:
                return f'known {number}'
            self.note(number)
            return f'noted {number}'
        if number in self.done:
            return f'again {number} ' + self.send('ack', number)
        self.done.add(number)
        self.ran.append(number)
        return f'executed {number} ' + self.send('ack', number)

    def restart(self, count):
        if count > len(self.acked):
            return f'no restart {count}'
        while len(self.acked) > count:
            self.forget(self.acked.pop())
        return f'restarted {count}'

    def ends(self):
        return [' '.join(map(str, ['ran', *self.ran])), f'executed {len(self.ran)} of {len(self.waits)} acknowledged {len(self.acked)}']


class Script:
    """A random script as long as one may be, and the answers to it."""

    def __init__(self, draw, waits):
        self.draw, self.world = draw, World(waits)
        self.on_the_way, self.lines, self.answers, self.lost = [], [], [], 0
        size = 0
        while True:
            verb, number, line = self.next()
            size += len(line) + 1
            if size > LIMIT:
                return
            sent = len(self.world.packets)
            self.lines.append(line)
            self.answers.append(getattr(self.world, verb)(number) if verb else 'bad line')
            if len(self.world.packets) > sent:
                if draw.random() < 0.15:
                    self.lost += 1
                else:
                    self.on_the_way.append(len(self.world.packets))

    def next(self):
        """The next event, and its line."""
        draw, world = self.draw, self.world
        chance = draw.random()
        if chance < 0.01:
            return None, 0, draw.choice(BAD_LINES)
        if chance < 0.02:
            return self.event('restart', draw.choice([0, len(world.acked) // 2, len(world.acked) + 1, len(world.acked)]) if draw.random() < 0.1
                              else max(0, len(world.acked) - draw.randrange(6)))
        if chance < 0.06:
            return self.event('order', draw.randrange(len(world.waits) + 2))
        if chance < 0.12:
            return self.event('deliver', draw.randrange(len(world.packets) + 2))
        if self.on_the_way and chance < 0.7:
            at = draw.randrange(max(0, len(self.on_the_way) - 20), len(self.on_the_way))
            packet = self.on_the_way[at]
            if draw.random() < 0.9:
                self.on_the_way.pop(at)
            return self.event('deliver', packet)
        if world.ready.items:
            return self.event('order', draw.choice(world.ready.items))
        if draw.random() < 0.2:
            return self.event('restart', draw.randrange(len(world.acked) + 1))
        return self.event('order', draw.randrange(len(world.waits) + 2))

    def event(self, verb, number):
        return verb, number, f'{verb} {number}'


def run(program, folder, words):
    done = subprocess.run([program, *words], cwd=folder, stdin=subprocess.DEVNULL, capture_output=True, timeout=120)
    return done.returncode, done.stdout.decode()


def plans(folder):
    """The universes and the targets."""
    with open(os.path.join(folder, 'chains.json'), 'w') as file:
        file.write(document(large_types()))
    data = lambda name: os.path.join(DATA, name)
    yield data('web.json'), ['Web:run']
    yield data('shop.json'), ['Proxy:plain']
    yield data('crossed.json'), ['A:a3', 'B:b3']
    yield os.path.join(EXAMPLES, 'wordpress.json'), ['wordpress:installed']
    yield 'chains.json', large_targets(4)
    yield 'chains.json', large_targets(32)


def try_plan(program, folder, draw, universe, targets):
    """How many actions there are, and what was tried; or none where an answer is wrong."""
    status, text = run(program, folder, ['plan', universe, *targets])
    if status:
        return None
    with open(os.path.join(folder, 'plan'), 'w') as file:
        file.write(text)
    actors, after = actors_and_waits(''.join(line + '\n' for line in text.split('\n')[:-1] if not line.startswith('dup ')))
    last, waits = {}, []
    for number, (actor, others) in enumerate(zip(actors, after), 1):
        waits.append(sorted({*others, last[actor]} if actor in last else set(others)))
        last[actor] = number
    counts = {'actions': len(actors), 'scripts': 0, 'lines': 0, 'lost': 0, 'restarts': 0, 'again': 0, 'held': 0, 'executed': 0, 'most acknowledged': 0}
    while counts['lines'] < LINES:
        script = Script(draw, waits)
        with open(os.path.join(folder, 'script'), 'w') as file:
            file.write(''.join(line + '\n' for line in script.lines))
        wanted = [*script.answers, *script.world.ends()]
        if run(program, folder, ['control', universe, 'plan', 'script']) != (0, ''.join(line + '\n' for line in wanted)):
            return None
        ran = script.world.ran
        with open(os.path.join(folder, 'turns'), 'w') as file:
            file.write(''.join(f'{actors[number - 1]}\n' for number in ran))
        did = [*(f'did {number}' for number in ran), f'progress {len(ran)} of {len(actors)}']
        if run(program, folder, ['crew', universe, 'plan', 'turns']) != (0, ''.join(line + '\n' for line in did)):
            return None
        counts['scripts'] += 1
        counts['lines'] += len(script.lines)
        counts['lost'] += script.lost
        counts['executed'] += len(ran)
        for name, word in (('restarts', 'restarted'), ('again', 'again'), ('held', 'held')):
            counts[name] += sum(answer.split(' ')[0] == word for answer in script.answers)
        counts['most acknowledged'] = max(counts['most acknowledged'], len(script.world.acked))
    return counts


def main(words):
    program = os.path.abspath(words[0] if words else os.path.join(HERE, '..', 'crates', 'metis', 'out', 'metis'))
    seed = int(words[1]) if len(words) > 1 else 1
    passed, failed = 0, 0
    with tempfile.TemporaryDirectory() as folder:
        for universe, targets in plans(folder):
            counts = try_plan(program, folder, random.Random(seed), universe, targets)
            if counts is None:
                failed += 1
                print(f'FAILED: {os.path.basename(universe)}, seed {seed}: a wrong answer')
            else:
                passed += counts['scripts']
                print(f'{os.path.basename(universe)}: ' + ', '.join(f'{name} {count:,}' for name, count in counts.items()), flush=True)
    print(f'{passed} scripts passed, {failed} plans failed')
    return 1 if failed else 0


if __name__ == '__main__':
    sys.exit(main(sys.argv[1:]))
