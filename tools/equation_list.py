"""The layered matrix of an equation list, by docs/formats.md alone: nothing of the program is used."""
import collections
import re

NAME = rb"[A-Za-z_][A-Za-z0-9_.]{0,63}"
VALUE = rb"([+-]?)([0-9]{1,18})(?:/([0-9]{1,18})|\.([0-9]{1,17}))?(\+\?)?"
LayeredMatrix = collections.namedtuple("LayeredMatrix", "shape constants symbols")


class NoModel(Exception):
    """The text breaks a rule of equation lists."""


def demand(holds):
    if not holds:
        raise NoModel


def value_of(word, prime):
    """The residue of a VALUE, 0 where it has no number, and whether it has a symbol."""
    found = re.fullmatch(VALUE, b"0+?" if word == b"?" else word)
    demand(found)
    sign, digits, below, decimals, symbol = found.groups(b"")
    above, below = int(sign + digits + decimals), int(below or 10 ** len(decimals))
    demand(len(digits + decimals) <= 18 and below % prime and (above == 0 or above % prime))
    return above * pow(below, -1, prime) % prime, symbol != b""


def read(text, prime):
    """The equations by name, each as the values at its unknowns, and the numbers of the unknowns by name."""
    equations, unknowns = {}, {}
    for line in text.split(b"\n"):
        said = line.removesuffix(b"\r").partition(b"#")[0]
        word, *names = re.findall(rb"[^\t ]+", said) or [b""]
        demand(re.fullmatch(rb"[\t -~]*", said) and (names if word in (b"eq", b"unknown") else not word))
        if word == b"eq":
            equation, items = names[0], [item.partition(b"=") for item in names[1:]]
            names = [name for name, _, _ in items]
            demand(re.fullmatch(NAME, equation) and equation not in equations and len(set(names)) == len(names))
            equations[equation] = {name: value_of(value, prime) for name, _, value in items}
        for name in names:
            demand(re.fullmatch(NAME, name))
            unknowns.setdefault(name, len(unknowns) + 1)
    demand(len(equations) <= 4096 and len(unknowns) <= 4096)
    return equations, unknowns


def layered_matrix(text, prime):
    """The five numbers of the shape, the entries of each row of constants, and the columns of each row of symbols; None where the text
    breaks a rule. An equation with constants and symbols has an auxiliary column."""
    try:
        equations, unknowns = read(text, prime)
    except NoModel:
        return None
    constant_rows, symbol_rows, columns = [], [], len(unknowns)
    for values in equations.values():
        constants = {unknowns[name]: residue for name, (residue, _) in values.items() if residue}
        symbols = {unknowns[name] for name, (_, symbol) in values.items() if symbol}
        if constants and symbols:
            columns += 1
            constants[columns] = 1
            symbols.add(columns)
        if constants or not symbols:
            constant_rows.append(constants)
        if symbols:
            symbol_rows.append(symbols)
    shape = [len(equations), len(unknowns), len(constant_rows), len(symbol_rows), columns]
    return LayeredMatrix(shape, constant_rows, symbol_rows)
