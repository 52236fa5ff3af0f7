#!/usr/bin/env python3
"""Times the commands keygen, pubkey, encrypt and decrypt of the proved program and of `scheme.cpp` in turns, and compares their files.

    scheme.py ROUNDS PROVED PLAIN

The table has m = 4096, p = 65537 and seven moduli in its chain. The time of a proved command is that of the whole command less that of
`table`, which loads the same table; the plain program counts no table and no file. All times are processor times.
"""
import os
import resource
import subprocess
import sys
import tempfile

sys.path.insert(0, os.path.join(os.path.dirname(os.path.abspath(__file__)), "..", "plain"))
import plain  # noqa: E402

TEMPLATE = """m = 4096
p = 65537
factor = [11088, 1]
dual = [[1]]
generators = [[4095, 2], [5, 1024]]
weight = 64
digits = [2, 2, 2, 1]
chain = [1231453023109121, 1337006139375617, 3799912185593857, 4222124650659841, 7881299347898369, 31525197391593473, 180143985094819841]
special = [1945555039024054273, 4179340454199820289]
"""
COMMANDS = {
    "keygen": (["keygen", "s", "k", "z", "1"], "k.sk"),
    "pubkey": (["pubkey", "k", "z", "2"], "k.pk"),
    "encrypt": (["encrypt", "k", "c", "z", "3", "x"], "c.ct"),
    "decrypt": (["decrypt", "k", "c"], None),
}


def numbers(t):
    """What scheme.cpp reads."""
    eta = -t.factor[0] % t.p
    # For d = 1 the trace is the element itself.
    c = pow(t.m, -1, t.p)
    eps = [x % t.p for x in t.fold([c * pow(eta, t.m - i, t.p) for i in range(t.m)])]
    x = [(17 * i * i + 3 * i + 1) % t.p for i in range(len(t.T))]
    rows = [[q, zeta, psi] for q, zeta, psi, _ in t.chain]
    return x, [t.m, t.p, t.n, t.weight, len(rows), *sum(rows, []), *t.phi, *eps, len(t.T), *t.T, *x, eta]


def run(words):
    before = resource.getrusage(resource.RUSAGE_CHILDREN)
    out = subprocess.run(words, capture_output=True, text=True)
    after = resource.getrusage(resource.RUSAGE_CHILDREN)
    return after.ru_utime - before.ru_utime + after.ru_stime - before.ru_stime, out.stdout


rounds, proved, program = int(sys.argv[1]), os.path.abspath(sys.argv[2]), os.path.abspath(sys.argv[3])
with tempfile.TemporaryDirectory() as folder, tempfile.TemporaryDirectory() as other:
    os.chdir(folder)
    for name, text in (("s.tmpl", TEMPLATE), ("z.seed", "0" * 64 + "\n")):
        with open(name, "w") as file:
            file.write(text)
    print(run([proved, "maketable", "s", "s"])[1], end="")
    x, given = numbers(plain.Table("s"))
    slots = plain.print_slots([[v] for v in x])
    with open("x.slots", "w") as file:
        file.write(slots)
    least = {name: 1e9 for name in ["table", *COMMANDS]}
    plain_least = {name: 1e18 for name in COMMANDS}
    for _ in range(rounds):
        least["table"] = min(least["table"], run([proved, "table", "s"])[0])
        for name, (words, target) in COMMANDS.items():
            if target and os.path.exists(target):
                os.remove(target)
            took, out = run([proved, *words])
            if out != ("" if target else slots):
                sys.exit(f"{name} printed {out[:200]}")
            least[name] = min(least[name], took)
        out = subprocess.run([program, "3", other], input=" ".join(map(str, given)), capture_output=True, text=True).stdout
        for line in out.splitlines():
            name, took = line.split()
            plain_least[name] = min(plain_least[name], float(took))
    for name in ("k.sk", "k.pk", "c.ct"):
        with open(name, "rb") as one, open(os.path.join(other, name), "rb") as two:
            mine, theirs = one.read(), two.read()
        same = mine.endswith(theirs) and len(mine) - len(theirs) in (10, 22)
        print(name, "the same bytes" if same else "DIFFERENT")
    print(f"table {least['table'] * 1e3:.1f} ms")
    for name in COMMANDS:
        took = (least[name] - least["table"]) * 1e3
        print(f"{name}: proved {took:.2f} ms, plain C++ {plain_least[name] / 1e3:.2f} ms, ratio {took * 1e3 / plain_least[name]:.2f}")
