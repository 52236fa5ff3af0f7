// The yardstick for the crate `double_crt`: rows of values at the units modulo nine moduli, for m = 4096.
//
//   g++ -std=c++17 -O2 -o residue residue.cpp && ./residue
//
// It prints the least times in nanoseconds of add_in, mul_in, permute_into and from_residues, and of one forward.
#include "transform.h"

typedef std::vector<u64> Row;
typedef std::vector<Row> Rows;

// products of two residues by Barrett's reduction with fixed shifts
struct Ring {
    u64 q, scaled, mu; int shift;
    Ring(u64 q_) : q(q_), shift(__builtin_clzll(q_) - 2) {
        scaled = q << shift;
        mu = (u64)(((u128)1 << 124) / scaled);
    }
    u64 mul(u64 a, u64 b) const {
        u128 p = (u128)(a << shift) * b;
        u64 t = (u64)(p >> 61), h = (u64)(((u128)t * mu) >> 63), r = (u64)p - h * scaled;
        return csub(csub(r, 2 * scaled), scaled) >> shift;
    }
};

struct Given { u64 q, zeta; };  // psi is zeta, since the convolution has the length 2m
static const Given given[] = {
    {1231453023109121ull, 780276059352177ull},       {1337006139375617ull, 72118864546070ull},
    {3799912185593857ull, 2455206406674934ull},      {4222124650659841ull, 1382246022435631ull},
    {7881299347898369ull, 4484037688735112ull},      {31525197391593473ull, 10685641567815319ull},
    {180143985094819841ull, 28926655053941789ull},   {1945555039024054273ull, 760262610774259588ull},
    {4179340454199820289ull, 2851580052554115727ull},
};

struct Modulus { Ring ring; Blue b; };

struct Table {
    int m = 4096, n = 0;
    std::vector<Modulus> moduli;
    std::vector<u32> units, places;
    Table() : places(m) {
        for (const Given &g : given) { moduli.push_back({Ring(g.q), Blue()}); moduli.back().b.build(m, g.q, g.zeta, g.zeta, 2 * m); }
        for (int j = 1; j < m; j += 2) { places[j] = units.size(); units.push_back(j); }
        n = units.size();
    }
    void forward(const Modulus &k, Row &a, Row &buf) const {
        u64 q = k.ring.q;
        for (int i = 0; i < n; i++) buf[i] = lazy(a[i], k.b.c[i], k.b.cs[i], q);
        std::fill(buf.begin() + n, buf.end(), 0);
        k.b.convolve(buf.data(), k.b.f, k.b.fs);
        for (int i = 0; i < n; i++) { int j = units[i]; a[i] = csub(lazy(buf[j], k.b.c[j], k.b.cs[j], q), q); }
    }
};

template <class F> static void print_least(const char *name, int rounds, F f) {
    double best = 1e18;
    for (int r = 0; r < rounds; r++) { double at = now(); f(); best = std::min(best, now() - at); }
    printf("%s %.0f\n", name, best * 1e3);
}

int main() {
    const Table t;
    const size_t rows = t.moduli.size();
    Rows a, b;
    for (const Modulus &k : t.moduli) {
        Row x(t.n), y(t.n);
        for (int i = 0; i < t.n; i++) { x[i] = (u64)(i + 1) * 0x9e3779b97f4a7c15ull % k.ring.q; y[i] = (u64)(i + 3) * 0xd1342543de82ef95ull % k.ring.q; }
        a.push_back(x); b.push_back(y);
    }
    const Rows coefficients = a;
    Rows out = a, made;
    print_least("add_in", 50, [&] {
        for (size_t r = 0; r < rows; r++) { u64 q = t.moduli[r].ring.q; for (int i = 0; i < t.n; i++) a[r][i] = csub(a[r][i] + b[r][i], q); }
    });
    print_least("mul_in", 50, [&] {
        for (size_t r = 0; r < rows; r++) { const Ring &k = t.moduli[r].ring; for (int i = 0; i < t.n; i++) a[r][i] = k.mul(a[r][i], b[r][i]); }
    });
    u32 m = t.m;
    print_least("permute_into", 50, [&] {
        for (size_t r = 0; r < rows; r++) for (int i = 0; i < t.n; i++) out[r][i] = a[r][t.places[t.units[i] * 5 % m]];
    });
    print_least("from_residues", 20, [&] {
        made = coefficients;
        Row buf(2 * m);
        for (size_t r = 0; r < rows; r++) t.forward(t.moduli[r], made[r], buf);
    });
    // the second value of the first row, at omega^3, by Horner's rule
    u64 q = t.moduli[0].ring.q, omega = mulm(given[0].zeta, given[0].zeta, q), at = powm(omega, 3, q), value = 0;
    for (int k = t.n - 1; k >= 0; k--) value = (mulm(value, at, q) + coefficients[0][k]) % q;
    CHECK(made[0][1] == value);
    const Blue &blue = t.moduli[0].b;
    Row full(m, blue.q - 1), buf(2 * m);
    print_least("forward", 20, [&] {
        for (u32 k = 0; k < m; k++) buf[k] = lazy(full[k], blue.c[k], blue.cs[k], blue.q);
        memset(buf.data() + m, 0, (size_t)m * 8);
        blue.convolve(buf.data(), blue.f, blue.fs);
        for (u32 k = 0; k < m; k++) buf[k] = csub(lazy(buf[k], blue.c[k], blue.cs[k], blue.q), blue.q);
    });
    u64 sum = 0;
    for (const Row &r : out) for (u64 x : r) sum ^= x;
    CHECK(sum);
}
