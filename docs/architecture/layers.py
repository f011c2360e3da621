"""The layers: which headings of crates.txt make which (layers.txt), and on which layers each stands."""

from dataclasses import dataclass, field
from pathlib import Path

from repository import KIT

TABLE = Path(__file__).resolve().parent / "layers.txt"


@dataclass
class Layer:
    number: int
    name: str
    headings: list = field(default_factory=list)
    crates: list = field(default_factory=list)
    # the layers that it stands on, without those that others of them stand on
    below: list = field(default_factory=list)
    rank: int = 0


def layers_of(crates, problems):
    layers = read_table()
    place = placed(layers, crates, problems)
    needs = needed(layers, place, problems)
    for layer in layers:
        layer.below = sorted(reduced(needs, layer.number))
        layer.rank = 1 + max((layers[number - 1].rank for number in layer.below), default=-1)
    return layers


def read_table():
    layers = []
    for line in TABLE.read_text().splitlines():
        if not line.strip() or line.startswith("#"):
            continue
        if line[0].isspace():
            layers[-1].headings.append(line.strip())
        else:
            layers.append(Layer(len(layers) + 1, line.strip()))
    return layers


def placed(layers, crates, problems):
    """The layer of each crate, by its heading."""
    headings = list(dict.fromkeys(crate.heading for crate in crates))
    of = {}
    for layer in layers:
        for start in layer.headings:
            fits = [heading for heading in headings if heading.startswith(start)]
            if len(fits) != 1:
                problems.append(f"docs/architecture/layers.txt: '{start}' begins {len(fits)} headings of crates.txt, not one")
            for heading in fits:
                if of.setdefault(heading, layer) is not layer:
                    problems.append(f"docs/architecture/layers.txt: '{heading}' is in '{of[heading].name}' and in '{layer.name}'")
    problems.extend(f"docs/architecture/layers.txt: no layer has the heading '{heading}' of crates.txt" for heading in headings if heading not in of)
    for crate in crates:
        if crate.heading in of:
            of[crate.heading].crates.append(crate)
    return {crate.name: layer.number for layer in layers for crate in layer.crates}


def needed(layers, place, problems):
    """For each layer the other layers that its crates need. They must be earlier ones, so that the arrows go one way."""
    needs = {layer.number: set() for layer in layers}
    for layer in layers:
        for crate in layer.crates:
            for need in crate.needs:
                if need not in place and need not in KIT:
                    problems.append(f"crates.txt: {crate.name} needs {need}, which is no crate here and none of the kit")
                elif place.get(need, 0) > layer.number:
                    problems.append(f"docs/architecture/layers.txt: {crate.name} of layer {layer.number} needs {need} of layer {place[need]}, which is no earlier one")
                elif place.get(need, layer.number) != layer.number:
                    needs[layer.number].add(place[need])
    return needs


def reduced(needs, number):
    """The layers that a layer needs, without those that one of them needs already."""
    return {low for low in needs[number] if not any(low in reached(needs, other) for other in needs[number] - {low})}


def reached(needs, number):
    return needs[number].union(*(reached(needs, low) for low in needs[number]))
