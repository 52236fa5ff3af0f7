#!/usr/bin/env python3
"""The first fault of a table or of a template by the definitions: whole numbers, schoolbook products, each check as it is said.

    faults.py a.table b.tmpl ..

prints a line for each file: what helib_cli says after `BadTable`, `BadTemplate` or `NoRoot`, or `accepted`. A template is filled
first. It is slow and made to be read, and it serves to make the expected values of tests.
"""
import sys
import tomllib
from functools import reduce
from itertools import product
from math import gcd, prod

from plain import cyclotomic, divided, inverse, plus, roots, times

KEYS = ["m", "p", "factor", "dual", "generators", "weight", "digits", "chain", "special", "inverse"]


class Fault(Exception):
    pass


def need(holds, *fault):
    if not holds:
        raise Fault(*fault)


# the form of each key

def number(x, low=0, high=2 ** 63 - 1):
    return type(x) is int and low <= x <= high


def numbers(x, low=0, high=2 ** 63 - 1):
    return type(x) is list and all(number(y, low, high) for y in x)


def rows(x):
    return type(x) is list and all(map(numbers, x))


def has_form(t, key, template):
    x = t.get(key)
    match key:
        case "m":
            return number(x, 3, 65536)
        case "p":
            return number(x, 2, 131071)
        case "factor":
            return numbers(x, 0, t["p"] - 1) and 2 <= len(x) <= 65 and x[-1] == 1
        case "dual":
            d = len(t["factor"]) - 1
            return rows(x) and len(x) == d and all(len(row) == d and numbers(row, 0, t["p"] - 1) for row in x)
        case "generators":
            return (rows(x) and len(x) <= 16 and all(len(row) == 2 for row in x)
                    and all(1 <= g < t["m"] and 1 <= size <= t["m"] for g, size in x))
        case "weight":
            return number(x, 1, 65536)
        case "digits":
            return numbers(x, 1) and (type(t.get("chain")) is not list or sum(x) == len(t["chain"]))
        case "chain" | "special":
            most = 32 if key == "chain" else 16
            if template:
                return numbers(x, 3, 2 ** 62 - 1) and 1 <= len(x) <= most and all(q % 2 for q in x)
            return rows(x) and 1 <= len(x) <= most and all(len(row) == 4 for row in x)
        case "inverse":
            return rows(x) and [len(row) for row in x] == list(range(len(t["chain"]) + len(t["special"])))


def shape(text, template=False):
    try:
        t = tomllib.loads(text.decode())
    except (tomllib.TOMLDecodeError, UnicodeDecodeError):
        raise Fault("Text" if not template else "text")
    first = () if template else ("Shape",)
    keys = KEYS[:9] if template else KEYS if any(key in t for key in KEYS[5:]) else KEYS[:5]
    for key in keys:
        need(has_form(t, key, template), *first, key)
    need(set(t) <= set(keys), *first, "other")
    return t


# the checks of the slots

def check_cube(m, p, d, generators):
    need(pow(p, d, m) == 1, "NotOrder")
    powers = [pow(p, u, m) for u in range(d)]
    for i, (g, size) in enumerate(generators):
        need(pow(g, size, m) in powers, "NotPower", i)
    need(d * prod(size for _, size in generators) == sum(gcd(k, m) == 1 for k in range(m)), "WrongCount")
    earlier = {}
    indices = product(*(range(size) for _, size in generators))
    turns = [prod(pow(g, v, m) for (g, _), v in zip(generators, e)) % m for e in indices]
    for b, k in enumerate(t * power % m for t in turns for power in powers):
        need(k not in earlier, "NotDistinct", earlier.get(k), b)
        earlier[k] = b
    return turns


def check_height(m):
    """C_i is X^m - 1 without the first cyclotomic polynomials."""
    small = lambda f: all(abs(c) < 2 ** 31 for c in f)
    left = [-1] + [0] * (m - 1) + [1]
    for k in (k for k in range(1, m + 1) if m % k == 0):
        left = divided(left, cyclotomic(k))[0]
        need(small(left) and small(cyclotomic(k)), "Tall")
    phi = cyclotomic(m)
    power = [1] + [0] * (len(phi) - 2)
    for _ in range(m):
        need(small(power), "Tall")
        power = [x - power[-1] * c for x, c in zip([0] + power[:-1], phi)]


def check_slots(m, p, factor, dual, turns):
    d, phi = len(factor) - 1, cyclotomic(m)
    reduced = lambda a: [c % p for c in divided(a, factor, p)[1]]
    folded = lambda a: [c % p for c in divided(a, phi)[1]]
    at = lambda f, x: reduce(lambda s, c: plus(reduced(times(s, x)), [c]), reversed(f), [])
    is_number = lambda a, c: all(x % p == (c if i == 0 else 0) for i, x in enumerate(a))

    def substituted(a, k):
        out = [0] * (k * (len(a) - 1) + 1)
        for i, c in enumerate(a):
            out[i * k] = c
        return out

    def trace(a):
        out, x = [], a
        for _ in range(d):
            out, x = plus(out, x), reduced(substituted(x, p))
        return [c % p for c in out]

    need(is_number(at(factor, reduced([0] * p + [1])), 0), "NotFrobenius")
    need(is_number(at(phi, reduced([0, 1])), 0), "NotDivisor")
    shift = [trace(reduced([0] * ((m - i) % m) + [1]))[0] for i in range(m)]
    eps = folded([pow(m, -1, p) * c for c in shift])
    for e, t in enumerate(turns):
        need(is_number(reduced(substituted(eps, t)), int(e == 0)), "Idempotent", e)
    need(is_number(folded(times(eps, factor)), 0), "NotAnnihilated")
    total = reduce(plus, (folded(substituted(eps, pow(t, -1, m))) for t in turns))
    need(is_number(total, 1), "NotComplete")
    for i, k in product(range(d), repeat=2):
        need(is_number(trace(reduced([0] * k + dual[i])), int(i == k)), "Dual", i, k)


# the checks of the moduli

def check_modulus(m, i, q, zeta, psi):
    need(q % 2 and 3 <= q < 2 ** 62 and zeta < q and psi < q, "Size", i)
    need(q % m == 1, "Residue", i)
    need(pow(zeta, 2 * m, q) == 1, "HalfRoot", i)
    omega = zeta * zeta % q
    need(all(gcd(pow(omega, k, q) - 1, q) == 1 for k in range(1, m) if m % k == 0), "Root", i)
    need(pow(psi, (1 << (2 * m - 2).bit_length()) // 2, q) == q - 1, "TwoRoot", i)


def check_moduli(m, p, moduli, inverses):
    for i, (q, zeta, psi, _) in enumerate(moduli):
        check_modulus(m, i, q, zeta, psi)
    is_inverse = lambda e, q, modulus: e < modulus and q * e % modulus == 1
    for j, i in ((j, i) for j in range(len(moduli)) for i in range(j)):
        need(is_inverse(inverses[j][i], moduli[i][0], moduli[j][0]), "Inverse", i, j)
    for i, (q, _, _, entry) in enumerate(moduli):
        need(is_inverse(entry, q, p), "PlainInverse", i)


def check(t):
    m, p, d = t["m"], t["p"], len(t["factor"]) - 1
    need(t.get("weight", 0) <= sum(gcd(k, m) == 1 for k in range(m)), "Weight")
    turns = check_cube(m, p, d, t["generators"])
    check_height(m)
    check_slots(m, p, t["factor"], t["dual"], turns)
    if "chain" in t:
        check_moduli(m, p, t["chain"] + t["special"], t["inverse"])


def fill(t):
    qs, found = t["chain"] + t["special"], []
    for i, q in enumerate(qs):
        try:
            found.append([q, *roots(t["m"], q), inverse(q, t["p"])])
        except ValueError:
            raise Fault("NoRoot", i)
    t["chain"], t["special"] = found[:len(t["chain"])], found[len(t["chain"]):]
    t["inverse"] = [[inverse(qs[i], qs[j]) for i in range(j)] for j in range(len(qs))]


def first_fault(text, template=False):
    try:
        t = shape(text, template)
        if template:
            fill(t)
        check(t)
    except Fault as fault:
        return " ".join(map(str, fault.args))
    return "accepted"


if __name__ == "__main__":
    for name in sys.argv[1:]:
        with open(name, "rb") as file:
            print(name, first_fault(file.read(), name.endswith(".tmpl")))
