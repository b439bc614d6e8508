"""Checks the strings that `dewgoblin strings` prints, with numpy and with nothing of this project.

Arguments: the folder of examples, a seed, and the words that start the program. A tree of each number of modes is made
here by random lawful merges, printed as `node` lines, and its strings are to anticommute, any two. For H2 the Hamiltonian
is built twice, from creation and annihilation matrices and from the strings, and both are to have the same energies.
"""

import itertools
import random
import subprocess
import sys
import tempfile
from pathlib import Path

import numpy

# H2 in STO-3G near a distance of 0.735 Angstrom: integrals over its two molecular orbitals, in Hartree; (pq|rs) is in chemists'
# notation, and all others are these by symmetry or zero. That both ways give the same energies does not hang on the digits; the
# least of them is the known electronic energy of H2 at that distance.
ONE_BODY = {(0, 0): -1.25633907300325, (1, 1): -0.47189600728114184}
TWO_BODY = {
    (0, 0, 0, 0): 2 * 0.33785507740175813,
    (0, 0, 1, 1): 2 * 0.3322908651276482,
    (0, 1, 0, 1): 2 * 0.09046559989211572,
    (1, 1, 1, 1): 2 * 0.34928686136600906,
}
LEAST_ENERGY = -1.857275030202

PAULI = {
    "I": numpy.eye(2),
    "X": numpy.array([[0, 1], [1, 0]]),
    "Y": numpy.array([[0, -1j], [1j, 0]]),
    "Z": numpy.array([[1, 0], [0, -1]]),
}


class Program:
    """The program, started as its starter does: the file on descriptor 3, the terms on standard input."""

    def __init__(self, words):
        self.words = words
        self.folder = tempfile.TemporaryDirectory()

    def ask(self, command, file="", terms=""):
        tree = Path(self.folder.name, "file")
        tree.write_text(file)
        words = ["sh", "-c", 'exec 3<"$0" "$@"', str(tree), *self.words, command]
        done = subprocess.run(words, input=terms, capture_output=True, text=True, check=True)
        assert done.stdout.endswith("."), f"{command}: no answer"
        return done.stdout[:-1]


def read_strings(text, modes):
    """The strings of a text: the number, a tab and a letter for each node on every line, and nothing else."""
    lines = text.split("\n")
    assert lines.pop() == "" and len(lines) == 2 * modes, "a line for each Majorana"
    strings = []
    for number, line in enumerate(lines):
        said, string = line.split("\t")
        assert said == str(number) and len(string) == modes and set(string) <= set("IXYZ"), line
        strings.append(string)
    return strings


def anticommute(strings):
    """Whether any two different ones anticommute: the symplectic products of their bits, all at once."""
    bytes_of = numpy.array([list(string.encode()) for string in strings])
    x = numpy.isin(bytes_of, list(b"XY")).astype(numpy.int64)
    z = numpy.isin(bytes_of, list(b"YZ")).astype(numpy.int64)
    products = (x @ z.T + z @ x.T) % 2
    return bool((products == 1 - numpy.eye(len(strings), dtype=numpy.int64)).all())


def random_tree(modes, chance):
    """The `node` lines of a tree made by random lawful merges, in random order."""
    z_end = {leaf: leaf for leaf in range(2 * modes + 1)}
    lines = []
    for step in range(modes):
        holder = {end: entity for entity, end in z_end.items()}
        k = chance.choice([end // 2 for end in holder if end % 2 == 0 and end < 2 * modes])
        x, y = holder[2 * k], holder[2 * k + 1]
        z = chance.choice([entity for entity in z_end if entity not in (x, y)])
        lines.append("\t".join(["node", str(step), *(code(modes, child) for child in (x, y, z))]))
        end = z_end[z]
        for child in (x, y, z):
            del z_end[child]
        z_end[2 * modes + 1 + step] = end
    chance.shuffle(lines)
    return "".join(line + "\n" for line in lines)


def code(modes, entity):
    if entity == 2 * modes:
        return "-"
    return str(modes + entity if entity < 2 * modes else entity - 2 * modes - 1)


def read_terms(path):
    lines = [line.split("\t") for line in path.read_text().splitlines()]
    return int(lines[0][1]), [tuple(map(int, line[1:])) for line in lines[1:]]


def letters_of_product(strings, term):
    """In how many places the product of a term's strings is not I: by bits, phase left off."""
    count = 0
    for place in zip(*(strings[index] for index in term)):
        x = sum(letter in "XY" for letter in place) % 2
        z = sum(letter in "YZ" for letter in place) % 2
        count += x or z
    return count


def matrix(string):
    whole = numpy.eye(1)
    for letter in string:
        whole = numpy.kron(whole, PAULI[letter])
    return whole


def occupation_majoranas(modes):
    """a + a^ and -i(a - a^) of each mode as matrices on occupation numbers, the sign by the occupied modes before it."""
    gammas = []
    for mode in range(modes):
        lower = numpy.zeros((2**modes, 2**modes))
        for state in range(2**modes):
            if state >> mode & 1:
                before = bin(state & ((1 << mode) - 1)).count("1")
                lower[state ^ (1 << mode), state] = (-1) ** before
        gammas += [lower + lower.T, -1j * (lower - lower.T)]
    return gammas


def hamiltonian(gammas):
    """The electronic Hamiltonian of H2: spins alternate, so that mode 2p + s is orbital p with spin s."""
    lower = [(gammas[2 * mode] + 1j * gammas[2 * mode + 1]) / 2 for mode in range(4)]
    upper = [matrix.conj().T for matrix in lower]
    total = numpy.zeros_like(lower[0])
    for (p, q), value in ONE_BODY.items():
        for s in range(2):
            total = total + value * upper[2 * p + s] @ lower[2 * q + s]
    for (p, q, r, t), value in all_two_body().items():
        for s, u in itertools.product(range(2), repeat=2):
            total = total + value / 2 * upper[2 * p + s] @ upper[2 * r + u] @ lower[2 * t + u] @ lower[2 * q + s]
    return total


def all_two_body():
    """(pq|rs) with its symmetries: p and q, r and s, and the two pairs may be exchanged."""
    found = {}
    for (p, q, r, s), value in TWO_BODY.items():
        for first, second in [((p, q), (r, s)), ((r, s), (p, q))]:
            for a, b in itertools.product([first, first[::-1]], [second, second[::-1]]):
                found[(*a, *b)] = value
    return found


def majorana_terms(whole, gammas):
    """The sets of different Majoranas, but the empty one, whose product is part of a matrix."""
    terms = []
    for size in range(1, len(gammas) + 1):
        for term in itertools.combinations(range(len(gammas)), size):
            product = numpy.eye(len(whole))
            for index in term:
                product = product @ gammas[index]
            if abs(numpy.trace(product.conj().T @ whole)) / len(whole) > 1e-10:
                terms.append(term)
    return terms


def exchanged(strings):
    """The strings with two different letters of the first exchanged, or none where it has but one kind."""
    first = list(strings[0])
    other = next((place for place in range(1, len(first)) if first[place] != first[0]), None)
    if other is None:
        return None
    first[0], first[other] = first[other], first[0]
    return ["".join(first), *strings[1:]]


def check_every_size(program, seed):
    """Any two strings anticommute, for each number of modes; and the check sees a string whose letters were exchanged."""
    chance = random.Random(seed)
    pairs = caught = 0
    for modes in range(1, 257):
        strings = read_strings(program.ask("strings", file=random_tree(modes, chance)), modes)
        assert anticommute(strings), f"{modes} modes: two strings commute"
        pairs += modes * (2 * modes - 1)
        wrong = exchanged(strings)
        caught += wrong is not None and not anticommute(wrong)
    assert caught > 128, f"only {caught} wrong strings were seen"
    print(f"1 to 256 modes: any two strings anticommute, {pairs} pairs; {caught} wrong strings seen")


def check_weights(program, examples):
    """The letters of the terms' products are as many as the tree weight."""
    for name in ["two-modes", "h2", "hubbard-2x2"]:
        text = (examples / f"{name}.txt").read_text()
        modes, terms = read_terms(examples / f"{name}.txt")
        nodes = "".join(line + "\n" for line in program.ask("resume", terms=text).splitlines() if line.startswith("node"))
        strings = read_strings(program.ask("hatt_strings", terms=text), modes)
        assert strings == read_strings(program.ask("strings", file=nodes), modes), f"{name}: HATT's tree, as terms and as a file"
        counted = sum(letters_of_product(strings, term) for term in set(terms))
        said = int(program.ask("weigh", file=nodes, terms=text).split("\t")[1])
        assert counted == said, f"{name}: the products have {counted} letters, and the tree weighs {said}"
        print(f"{name}: the products of its terms have as many letters as the tree weighs, {said}")


def check_h2(program, examples):
    """H2 by its strings has the energies that it has by occupation numbers."""
    modes, terms = read_terms(examples / "h2.txt")
    strings = read_strings(program.ask("hatt_strings", terms=(examples / "h2.txt").read_text()), modes)
    plain = occupation_majoranas(modes)
    direct = hamiltonian(plain)
    assert sorted(majorana_terms(direct, plain)) == sorted(terms), "examples/h2.txt has other terms"
    energies = numpy.linalg.eigvalsh(direct)
    assert abs(energies[0] - LEAST_ENERGY) < 1e-9, f"the integrals give {energies[0]}"
    encoded = numpy.linalg.eigvalsh(hamiltonian([matrix(string) for string in strings]))
    assert numpy.abs(energies - encoded).max() < 1e-10, f"{energies} and {encoded}"
    wrong = exchanged(strings)
    assert wrong and not anticommute(wrong), "a wrong string was not seen"
    other = hamiltonian([matrix(string) for string in wrong])
    assert numpy.abs(energies - numpy.linalg.eigvalsh(other)).max() > 1e-3, "a wrong string has the same energies"
    print(f"h2: {len(energies)} energies agree, the least {energies[0]:.9f} Hartree; with a wrong string they don't")


def main():
    examples, seed, *words = sys.argv[1:]
    program = Program(words)
    check_every_size(program, int(seed))
    check_weights(program, Path(examples))
    check_h2(program, Path(examples))


main()
