"""Follows a list of actions over a universe, as `replay` and `waits` of the program do: for tests that do without the program.

Each rule stands here as docs/FORMATS.md has it: when an action is allowed, and for which earlier ones it waits.
"""

import copy
import json
import sys


class No(Exception):
    pass


class World:
    """The instances with their states and bindings, and for each the actions that others may have to wait for."""

    def __init__(self, universe):
        self.states = {kind["name"]: {state["name"]: state for state in kind["states"]} for kind in universe["types"]}
        self.initial = {kind["name"]: kind["initial"] for kind in universe["types"]}
        self.kind, self.state, self.bound = {}, {}, []
        self.last, self.entered, self.freed = {}, {}, {}

    def form(self, instance):
        return self.states[self.kind[instance]][self.state[instance]]

    def needs(self, form):
        return {entry if isinstance(entry, str) else entry["port"]: 1 if isinstance(entry, str) else entry["count"] for entry in form.get("require", ())}

    def check(self):
        for instance in self.state:
            for port, count in self.needs(self.form(instance)).items():
                givers = [to for at, own, to in self.bound if (at, own) == (port, instance) and port in self.form(to).get("provide", ())]
                if len(givers) < count:
                    raise No(f"{instance} lacks {port}")

    def leave(self, instance):
        """An instance leaves its state, so nobody may take from it; those that did are waited for."""
        if any(to == instance for _, _, to in self.bound):
            raise No(f"{instance} is in use")
        return self.freed.pop(instance, [])

    def do(self, number, verb, words):
        waits = []
        if verb == "new":
            instance = int(words[0])
            if instance in self.kind:
                raise No(f"{instance} is there")
            self.kind[instance], self.state[instance] = words[1], self.initial[words[1]]
            self.entered[instance] = number
        elif verb == "move":
            instance = int(words[0])
            waits = self.leave(instance)
            if self.state[instance] != words[1] or words[2] not in self.form(instance).get("next", ()):
                raise No(f"{instance} does not move from {words[1]} to {words[2]}")
            self.state[instance], self.entered[instance] = words[2], number
        elif verb == "delete":
            instance = int(words[0])
            waits = self.leave(instance)
            for _, _, to in [bond for bond in self.bound if bond[1] == instance]:
                self.freed.setdefault(to, []).append(number)
            self.bound = [bond for bond in self.bound if bond[1] != instance]
            del self.state[instance]
        else:
            port, instance, to = words[0], int(words[1]), int(words[2])
            if verb == "bind":
                if port not in self.form(to).get("provide", ()) or (port, instance, to) in self.bound or instance == to:
                    raise No(f"{instance} cannot take {port} from {to}")
                self.bound.append((port, instance, to))
                waits = [self.entered[to]]
            else:
                self.bound.remove((port, instance, to))
                self.freed.setdefault(to, []).append(number)
        self.check()
        own = self.last.get(instance)
        self.last[instance] = number
        return sorted({each for each in waits if each != own})


def teardown(world):
    """Deletes all, users before those that they take from."""
    while world.state:
        used = {to for _, _, to in world.bound}
        instance = next(each for each in reversed(list(world.state)) if each not in used)
        yield "delete", [str(instance)]
        world.bound = [bond for bond in world.bound if bond[1] != instance]
        del world.state[instance]


def holds(world, targets):
    """Whether what stands has each target, as often as it is named, and nothing is asked for beyond that."""
    have = [f"{world.kind[each]}:{state}" for each, state in world.state.items()]
    return all(have.count(target) >= targets.count(target) for target in targets)


def follow(world, lines, found):
    """Does the actions of some lines, and writes them with their waits behind `found`."""
    for number, line in enumerate(lines, len(found) + 1):
        verb, *words = line.split(" after ")[0].split(" ")
        waits = world.do(number, verb, words)
        found.append(f"{number} {verb} {' '.join(words)}" + (f" after {' '.join(map(str, waits))}" if waits else ""))


def placed(lines, hosts):
    """Where first fit puts the instances of a list, and how each `new` is held: by the fewest first deletions that make room."""
    rooms = {words[1]: int(words[2]) for words in hosts if words[0] == "host"}
    sizes = {words[1]: int(words[2]) for words in hosts if words[0] == "size"}
    at, size, events, found, holds = {}, {}, [], [], []
    for number, (verb, own, *more) in enumerate(lines, 1):
        if verb == "delete":
            events.append((number, own))
        if verb != "new":
            continue
        gone = {each for _, each in events}
        size[own] = sizes.get(more[0], 1)
        load = {host: sum(size[each] for each in at if at[each] == host and each not in gone) for host in rooms}
        fits = [host for host in rooms if rooms[host] - load[host] >= size[own]]
        if not fits:
            return 1, [f"noroom {number} size {size[own]} free {max(rooms[host] - load[host] for host in rooms)}"]
        at[own] = fits[0]
        found.append(f"on {own} {fits[0]}")
        made = sum(size[each] for each in at if at[each] == fits[0])
        candidates = [(k, size[each]) for k, each in events if at[each] == fits[0]]
        count = next(n for n in range(len(candidates) + 1) if made - sum(s for _, s in candidates[:n]) <= rooms[fits[0]])
        if count:
            holds.append(f"hold {number} after {' '.join(str(k) for k, _ in candidates[:count])}")
    return 0, [*found, *holds, f"placed {len(found)} hosts {len(rooms)}"]


def main(word, universe_path, plan_path, *rest):
    """`replay`, `waits` and `place`; `rollout` without a target, which takes all away; and `reconfigure` to what stands already."""
    with open(universe_path) as file:
        world = World(json.load(file))
    with open(plan_path) as file:
        lines = file.read().split("\n")[2:-2]
    found = []
    try:
        follow(world, (line.partition(" ")[2] for line in lines), found)
    except (No, KeyError, ValueError) as why:
        print(f"bad {len(found) + 1}: {why}")
        return 1
    if word == "replay":
        print(f"good standing {len(world.state)} actions {len(found)}")
        return 0
    if word == "place":
        with open(rest[0]) as file:
            hosts = [line.split(" ") for line in file.read().split("\n")]
        status, answer = placed([line.split(" ")[1:4] for line in found], hosts)
        print("\n".join(answer))
        return status
    if word == "rollout":
        more = [f"{verb} {' '.join(words)}" for verb, words in teardown(copy.deepcopy(world))]
        follow(world, more, found)
    if word == "reconfigure":
        with open(rest[0]) as file:
            wished = file.read().split("\n")[1:-2]
        if not holds(world, rest[1:]) or any(not line.startswith(("keep", "rebind")) for line in wished):
            sys.exit(f"no answer by hand to {rest[1:]} with {wished} over {lines}")
    made = sum(line.split(" ")[1] == "new" for line in found)
    print("\n".join(["metis plan 1", f"instances {made} actions {len(found)} dups 0", *found, "end"]))
    return 0


if __name__ == "__main__":
    sys.exit(main(*[word for word in sys.argv[1:] if word != "--plain"]))
