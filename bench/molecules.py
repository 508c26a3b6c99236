"""Records of upper-case SMILES, the same in each run: trees with rings, whose atoms have usual valences."""

import random

SEED = 20260101
VALENCES = {"C": 4, "N": 3, "O": 2, "S": 2, "F": 1, "Cl": 1, "Br": 1}
SHARES = {"C": 70, "N": 10, "O": 12, "S": 2, "F": 2, "Cl": 3, "Br": 1}
BONDS = {1: "", 2: "=", 3: "#"}
# How an atom at the end of a single bond is written now and then.
ENDS = {"C": "[13CH3]", "N": "[NH3+]", "O": "[O-]"}


class Molecule:
    """A connected graph with the bonds' orders, and the valences that are still free."""

    def __init__(self, source, count):
        self.source = source
        self.elements = []
        self.free = []
        self.parents = []
        self.children = []
        self.orders = {}
        for place in range(count):
            self.add_atom(count - place - 1)
        self.rings = self.add_rings()

    def add_atom(self, to_come):
        """Joins a new atom to one with a free valence, most often the latest, and leaves one for those to come."""
        source = self.source
        element = source.choices(list(SHARES), SHARES.values())[0]
        if to_come and sum(self.free) < 3:
            element = "C"
        place = len(self.elements)
        self.elements.append(element)
        self.children.append([])
        self.free.append(VALENCES[element])
        if place == 0:
            self.parents.append(None)
            return
        open_atoms = [atom for atom in range(place) if self.free[atom] > 0]
        parent = open_atoms[-1] if source.random() < 0.8 else source.choice(open_atoms)
        most = min(self.free[parent], self.free[place], 3)
        order = most if most > 1 and source.random() < 0.15 else 1
        if to_come and sum(self.free) - 2 * order < 1:
            order = 1
        self.parents.append(parent)
        self.children[parent].append(place)
        self.join(parent, place, order)

    def join(self, one, other, order):
        self.orders[one, other] = order
        self.free[one] -= order
        self.free[other] -= order

    def add_rings(self):
        """Joins pairs of atoms that aren't joined, and answers the pairs."""
        rings = []
        for _ in range(len(self.elements) // 12):
            one, other = sorted(self.source.sample(range(len(self.elements)), 2))
            if self.free[one] and self.free[other] and (one, other) not in self.orders:
                self.join(one, other, 1)
                rings.append((one, other))
        return rings

    def symbol(self, atom):
        element = self.elements[atom]
        is_end = not self.children[atom] and self.free[atom] == VALENCES[element] - 1
        if is_end and element in ENDS and self.source.random() < 0.1:
            return ENDS[element]
        return element

    def text(self):
        """The molecule from atom 0 on; a `(` or `)` stands among the atoms still to be written."""
        pieces = []
        numbers = {}
        to_come = [0]
        while to_come:
            atom = to_come.pop()
            if isinstance(atom, str):
                pieces.append(atom)
                continue
            if self.parents[atom] is not None:
                pieces.append(BONDS[self.orders[self.parents[atom], atom]])
            pieces.append(self.symbol(atom))
            pieces.extend(self.ring_numbers(atom, numbers))
            *branches, last = self.children[atom] or [None]
            if last is not None:
                to_come.append(last)
            for child in reversed(branches):
                to_come.extend([")", child, "("])
        return "".join(pieces)

    def ring_numbers(self, atom, numbers):
        """The ring numbers at an atom. An open ring has the least number that no other open ring has."""
        for ring in self.rings:
            if atom not in ring:
                continue
            if ring in numbers:
                number = numbers.pop(ring)
            else:
                number = min(set(range(1, 100)) - set(numbers.values()))
                numbers[ring] = number
            yield str(number) if number < 10 else f"%{number}"


def record(source):
    """A record of 5 to 60 atoms: one molecule, now and then an ion beside it, and in half of them a name."""
    count = source.randint(5, 60)
    has_ion = source.random() < 0.05
    text = Molecule(source, count - has_ion).text()
    if has_ion:
        text += "." + source.choice(["[Na+]", "[K+]", "[Cl-]", "[NH4+]"])
    if source.random() < 0.5:
        text += f" record {source.randint(1, 999999)}"
    return text


def write_records(path, count):
    """Writes a file of so many records, a line each."""
    source = random.Random(SEED)
    with open(path, "w", encoding="ascii") as file:
        for _ in range(count):
            file.write(record(source) + "\n")


def chain(count):
    return "C" * count


def comb(count):
    """A chain of which each atom but the last has a branch of one atom."""
    return "C(C)" * ((count - 1) // 2) + "C" * (count - 2 * ((count - 1) // 2))


def ladder(count):
    """Two sides of a ladder with an atom between their ends and at most 99 rungs, all open at once, and then a chain."""
    rungs = min(99, (count - 1) // 2)
    numbers = [str(rung) if rung < 10 else f"%{rung}" for rung in range(1, rungs + 1)]
    sides = ["C" + number for number in numbers]
    return "".join(sides) + "C" + "".join(reversed(sides)) + "C" * (count - 2 * rungs - 1)
