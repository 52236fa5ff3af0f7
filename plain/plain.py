#!/usr/bin/env python3
"""The commands of helib_cli by their definitions: whole numbers, schoolbook products, no transform and no proof.

It is slow and made to be read. What it prints and saves is what helib_cli prints and saves, so it serves to look at the
definitions on small inputs, to make the expected values of tests, and to compare the two programs:

    python3 plain.py clear a prod x y

Files stand in the current folder. Tables and texts are taken as they are: what is refused is not told apart here.
"""
import sys
import tomllib
from functools import reduce
from math import gcd


# Polynomials are lists of coefficients, the constant one first.

def times(a, b):
    out = [0] * (len(a) + len(b) - 1 if a and b else 0)
    for i, x in enumerate(a):
        if x:
            for j, y in enumerate(b):
                out[i + j] += x * y
    return out


def plus(a, b):
    n = max(len(a), len(b))
    return [(a[i] if i < len(a) else 0) + (b[i] if i < len(b) else 0) for i in range(n)]


def divided(a, g, p=None):
    """Quotient and remainder by a monic g, modulo p where it is given."""
    a, d = list(a), len(g) - 1
    quotient = [0] * max(0, len(a) - d)
    for i in reversed(range(len(quotient))):
        c = quotient[i] = a[i + d] % p if p else a[i + d]
        if c:
            for j, y in enumerate(g):
                a[i + j] -= c * y
    return quotient, a[:d] + [0] * (d - len(a))


def cyclotomic(m):
    f = [-1] + [0] * (m - 1) + [1]
    for d in range(1, m):
        if m % d == 0:
            f = divided(f, cyclotomic(d))[0]
    return f


def balanced(x, n):
    r = x % n
    return r - n if 2 * r > n else r


class Table:
    def __init__(self, name):
        with open(name + ".table", "rb") as file:
            t = tomllib.load(file)
        self.name, self.m, self.p = name, t["m"], t["p"]
        self.factor, self.dual, self.generators = t["factor"], t["dual"], t["generators"]
        self.d = len(self.factor) - 1
        self.phi = cyclotomic(self.m)
        self.n = len(self.phi) - 1
        self.units = [k for k in range(1, self.m) if gcd(k, self.m) == 1]
        self.chain, self.special = t.get("chain"), t.get("special")
        self.weight, self.digits = t.get("weight"), t.get("digits")
        self.indices = [[]]
        for _, size in self.generators:
            self.indices = [e + [v] for e in self.indices for v in range(size)]
        self.T = [reduce(lambda k, ge: k * pow(ge[0][0], ge[1], self.m) % self.m, zip(self.generators, e), 1)
                  for e in self.indices]

    # E

    def reduced(self, a):
        return [c % self.p for c in divided(a, self.factor, self.p)[1]]

    def mul(self, a, b):
        return self.reduced(times(a, b))

    def frob(self, a, u):
        for _ in range(u):
            raised = [0] * (self.p * (self.d - 1) + 1)
            for i, c in enumerate(a):
                raised[i * self.p] = c
            a = self.reduced(raised)
        return a

    def trace(self, a):
        out = [0] * self.d
        for j in range(self.d):
            out = [(x + y) % self.p for x, y in zip(out, self.frob(a, j))]
        return out

    def eta_power(self, k):
        return self.reduced([0] * (k % self.m) + [1])

    # R

    def fold(self, a):
        return divided(a, self.phi)[1]

    def product(self, a, b):
        return self.fold(times(a, b))

    def substituted(self, a, k):
        out = [0] * (k * (len(a) - 1) + 1)
        for i, c in enumerate(a):
            out[i * k] += c
        return self.fold(out)

    # slots

    def slots(self, a):
        out = []
        for t in self.T:
            x = [0] * self.d
            for i, c in enumerate(a):
                x = [(u + c * v) % self.p for u, v in zip(x, self.eta_power(i * t))]
            out.append(x)
        return out

    def eps(self):
        c = pow(self.m, -1, self.p)
        f = [c * self.trace(self.eta_power(self.m - i))[0] for i in range(self.m)]
        return [x % self.p for x in self.fold(f)]

    def encode(self, x):
        eps, out = self.eps(), [0] * self.n
        for value, t in zip(x, self.T):
            k = pow(t, -1, self.m)
            out = plus(out, self.substituted(self.product(value, eps), k))
        return [balanced(c, self.p) for c in out]

    def locate(self, k):
        for e, t in enumerate(self.T):
            for u in range(self.d):
                if t * pow(self.p, u, self.m) % self.m == k % self.m:
                    return e, u
        raise ValueError(k)

    # bounds

    def height(self):
        return max(max(map(abs, self.fold([0] * t + [1]))) for t in range(self.m))

    def fresh(self):
        n, p, w = self.n, self.p, self.weight
        return up(n * (p // 2) + p * (10 * n * n + 10 * n + 10 * n * w))

    def limit(self, level):
        q = 1
        for row in self.chain[:level + 1]:
            q = down(q * row[0])
        return down(q // (2 * self.height()))


def up(x):
    e = max(0, x.bit_length() - 32)
    y = -(-x >> e)
    return y << e


def down(x):
    e = max(0, x.bit_length() - 32)
    return x >> e << e


def bound_text(x):
    e = max(0, x.bit_length() - 32)
    return f"{x >> e}*2^{e}" if e else str(x)


# arrays and programs

def read_slots(name):
    with open(name + ".slots") as file:
        return [[int(w) for w in line.split()] for line in file.read().split("\n") if line]


def print_slots(x):
    return "".join(" ".join(map(str, v)) + "\n" for v in x)


def items(words):
    out = []
    for word in words:
        count, _, element = word.rpartition("*")
        out += [[int(c) for c in element.split(",")]] * (int(count) if count else 1)
    return out


def run(t, steps, inputs):
    values, inputs = {}, iter(inputs)
    element = lambda a, b, sign=1: [(x + sign * y) % t.p for x, y in zip(a, b)]
    for line in steps:
        words = line.split()
        if not words or words[0].startswith("#"):
            continue
        if len(words) > 1 and words[1] == "=":
            name, op, args = words[0], words[2], words[3:]
        else:
            name, op, args = words[1] if len(words) > 1 else "", words[0], words[1:]
        v = lambda i: values[args[i]]
        if op == "input":
            values[name] = next(inputs)
        elif op == "const":
            values[name] = items(args[1:])
        elif op in ("add", "addc"):
            values[name] = [element(a, b) for a, b in zip(v(0), v(1))]
        elif op == "sub":
            values[name] = [element(a, b, -1) for a, b in zip(v(0), v(1))]
        elif op in ("mul", "mulc"):
            values[name] = [t.mul(a, b) for a, b in zip(v(0), v(1))]
        elif op == "neg":
            values[name] = [[-x % t.p for x in a] for a in v(0)]
        elif op == "auto":
            at = [t.locate(k * int(args[0])) for k in t.T]
            values[name] = [t.frob(v(1)[e], u) for e, u in at]
        elif op == "rotate":
            i, amount = int(args[0]), int(args[1])
            size = t.generators[i][1]
            moved = [e[:i] + [(e[i] - amount) % size] + e[i + 1:] for e in t.indices]
            values[name] = [v(2)[t.indices.index(e)] for e in moved]
        elif op == "output":
            return v(0)


# draws: the words of ChaCha20

def chacha_words(key, number):
    rotl = lambda x, r: (x << r | x >> 32 - r) & 0xffffffff
    k = [int.from_bytes(key[i:i + 4], "little") for i in range(0, 32, 4)]
    count = 0
    while True:
        start = [0x61707865, 0x3320646e, 0x79622d32, 0x6b206574, *k, count & 0xffffffff, count >> 32,
                 number & 0xffffffff, number >> 32]
        x = list(start)
        for r in range(20):
            for i in range(4):
                a, b, c, d = (i, 4 + i, 8 + i, 12 + i) if r % 2 == 0 else (i, 4 + (i + 1) % 4, 8 + (i + 2) % 4, 12 + (i + 3) % 4)
                for first, second, third, turn in ((a, b, d, 16), (c, d, b, 12), (a, b, d, 8), (c, d, b, 7)):
                    x[first] = (x[first] + x[second]) & 0xffffffff
                    x[third] = rotl(x[third] ^ x[first], turn)
        yield from ((u + v) & 0xffffffff for u, v in zip(x, start))
        count += 1


class Draws:
    def __init__(self, seed, number):
        self.words = chacha_words(seed, number)

    def uniform(self, q):
        return sum(next(self.words) << 32 * i for i in range(4)) % q

    def small(self):
        w = next(self.words)
        return (w & 1) - (w >> 1 & 1)

    def error(self):
        w = next(self.words)
        return (w & 1023).bit_count() - (w >> 10 & 1023).bit_count()

    def sparse(self, n, weight):
        order, out = list(range(n)), [0] * n
        for i in range(weight):
            j = i + self.uniform(n - i)
            order[i], order[j] = order[j], order[i]
            out[order[i]] = -1 if next(self.words) & 1 else 1
        return out


def read_seed(name, number):
    with open(name + ".seed") as file:
        return Draws(bytes.fromhex(file.read().strip()), number)


# keys and ciphertexts

def number_of(rows, qs):
    """The whole numbers below the product of qs with these residues."""
    Q = reduce(int.__mul__, qs)
    parts = [Q // q * pow(Q // q, -1, q) for q in qs]
    return [sum(r * part for r, part in zip(column, parts)) % Q for column in zip(*rows)]


def modulo(a, Q):
    return [x % Q for x in a]


def header(kind, table, key):
    return b"HBGV" + bytes([kind, 1, len(table)]) + table.encode() + bytes([len(key)]) + key.encode()


def read_header(data):
    at = 6
    names = []
    for _ in range(2):
        names.append(data[at + 1:at + 1 + data[at]].decode())
        at += 1 + data[at]
    return Table(names[0]), names[1], at


def written(t, a, rows):
    out = b""
    for q, zeta, _, _ in rows:
        omega = zeta * zeta % q
        for j in t.units:
            w = pow(omega, j, q)
            out += reduce(lambda s, c: (s * w + c) % q, reversed(a), 0).to_bytes(8, "little")
    return out


def read_polynomial(t, data, at, rows):
    """The residues below the product of the moduli: from the values at the units, by the inverse transform."""
    residues = []
    for q, zeta, _, _ in rows:
        omega = zeta * zeta % q
        values = [int.from_bytes(data[at + 8 * i:at + 8 * i + 8], "little") for i in range(t.n)]
        at += 8 * t.n
        share = pow(t.m, -1, q)
        a = [share * sum(v * pow(omega, -i * j, q) for v, j in zip(values, t.units)) % q for i in range(t.m)]
        residues.append([c % q for c in t.fold(a)])
    return number_of(residues, [row[0] for row in rows]), at


def read_secret(name):
    with open(name + ".sk", "rb") as file:
        data = file.read()
    t, key, at = read_header(data)
    return t, key, [b - 256 if b == 255 else b for b in data[at:]]


def roots(m, q):
    """The roots by the least base from 2 to 1000 that passes."""
    size = 1 << (2 * m - 2).bit_length()
    for g in range(2, 1001) if (q - 1) % (2 * m) == 0 and (q - 1) % size == 0 else ():
        zeta, psi = pow(g, (q - 1) // (2 * m), q), pow(g, (q - 1) // size, q)
        omega = zeta * zeta % q
        if (pow(zeta, 2 * m, q) == 1 and pow(psi, size // 2, q) == q - 1
                and all(gcd(pow(omega, k, q) - 1, q) == 1 for k in range(1, m) if m % k == 0)):
            return zeta, psi
    raise ValueError("no root", q)


def inverse(a, q):
    return pow(a, -1, q) if gcd(a, q) == 1 else 0


def filled(name):
    with open(name + ".tmpl", "rb") as file:
        t = tomllib.load(file)
    qs = t["chain"] + t["special"]
    rows = [[q, *roots(t["m"], q), inverse(q, t["p"])] for q in qs]
    t["chain"], t["special"] = rows[:len(t["chain"])], rows[len(t["chain"]):]
    t["inverse"] = [[inverse(qs[i], qs[j]) for i in range(j)] for j in range(len(qs))]
    return "".join(f"{key} = {value}\n" for key, value in t.items())


def save(name, data):
    with open(name, "xb") as file:
        file.write(data)


def command(words):
    match words:
        case ["clear", table, program, *names]:
            t = Table(table)
            with open(program + ".prog") as file:
                return print_slots(run(t, file.read().split("\n"), map(read_slots, names)))
        case ["maketable", source, table]:
            save(table + ".table", filled(source).encode())
        case ["keygen", table, key, seed, number]:
            t = Table(table)
            s = read_seed(seed, int(number)).sparse(t.n, t.weight)
            save(key + ".sk", header(1, table, key) + bytes(c % 256 for c in s))
        case ["pubkey", name, seed, number]:
            t, key, s = read_secret(name)
            draws, qs = read_seed(seed, int(number)), [row[0] for row in t.chain]
            a = number_of([[draws.uniform(q) for _ in range(t.n)] for q in qs], qs)
            e = [draws.error() for _ in range(t.n)]
            b = plus([-c for c in t.product(a, s)], [t.p * c for c in e])
            save(name + ".pk", header(2, t.name, key) + written(t, b, t.chain) + written(t, a, t.chain))
        case ["encrypt", name, target, seed, number, slots]:
            with open(name + ".pk", "rb") as file:
                data = file.read()
            t, key, at = read_header(data)
            b, at = read_polynomial(t, data, at, t.chain)
            a, at = read_polynomial(t, data, at, t.chain)
            draws = read_seed(seed, int(number))
            r, e0, e1 = ([draw() for _ in range(t.n)] for draw in (draws.small, draws.error, draws.error))
            c0 = plus(plus(t.product(b, r), [t.p * c for c in e0]), t.encode(read_slots(slots)))
            c1 = plus(t.product(a, r), [t.p * c for c in e1])
            level, bound = len(t.chain) - 1, t.fresh()
            if bound >= t.limit(level):
                return f"stopped 0 TooNoisy 0 {bound_text(bound)} {bound_text(t.limit(level))}\n"
            exponent = max(0, bound.bit_length() - 32)
            data = header(4, t.name, key)
            data += b"".join(x.to_bytes(4, "little") for x in (level, bound >> exponent, exponent))
            save(target + ".ct", data + written(t, c0, t.chain) + written(t, c1, t.chain))
        case ["decrypt", name, cipher]:
            t, _, s = read_secret(name)
            with open(cipher + ".ct", "rb") as file:
                data = file.read()
            at = read_header(data)[2]
            rows = t.chain[:int.from_bytes(data[at:at + 4], "little") + 1]
            c0, at = read_polynomial(t, data, at + 12, rows)
            c1, at = read_polynomial(t, data, at, rows)
            Q = reduce(int.__mul__, [row[0] for row in rows])
            return print_slots(t.slots([balanced(c, Q) for c in plus(c0, t.product(c1, s))]))
        case ["noise", cipher]:
            with open(cipher + ".ct", "rb") as file:
                data = file.read()
            t, _, at = read_header(data)
            level, man, exp = (int.from_bytes(data[at + 4 * i:at + 4 * i + 4], "little") for i in range(3))
            return f"level {level} bound {bound_text(man << exp)} limit {bound_text(t.limit(level))}\n"
        case _:
            raise ValueError(words)
    return ""


if __name__ == "__main__":
    print(command(sys.argv[1:]), end="")
