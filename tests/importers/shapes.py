"""A short way to write down a universe."""

import json


def shape(document):
    """Of each type its states in order, the initial one first: `name +provided -required -required*count > next`."""
    shapes = {}
    for component in json.loads(document)["types"]:
        states = component["states"]
        assert states[0]["name"] == component["initial"]
        assert component["name"] not in shapes
        shapes[component["name"]] = [state_shape(state) for state in states]
    return shapes


def state_shape(state):
    words = [state["name"], *(f"+{port}" for port in state.get("provide", ()))]
    for entry in state.get("require", ()):
        words.append(f"-{entry}" if isinstance(entry, str) else f"-{entry['port']}*{entry['count']}")
    return " ".join([*words, *(f"> {name}" for name in state.get("next", ()))])
