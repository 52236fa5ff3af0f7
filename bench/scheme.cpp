// The commands keygen, pubkey, encrypt and decrypt in plain C++, by the same transforms as `transform.cpp`: the yardstick for the
// proved commands. `scheme.py` writes the numbers that it reads and compares its files with theirs.
//
//   g++ -std=c++17 -O2 -o scheme scheme.cpp && ./scheme ROUNDS FOLDER < numbers
//
// It reads m, p, n, d = 1, weight, the chain with roots, Phi_m (n + 1 numbers), the idempotent (n numbers), the number of slots and T(e)
// for each, and the array to encrypt. The seed is 32 bytes 0, and the streams are 1, 2 and 3. It writes FOLDER/k.sk, k.pk, c.ct without
// their headers, and prints a line for each command: its name and its least processor time in microseconds, without tables and files.
#include "transform.h"
#include <fstream>
#include <iostream>
#include <string>
#include <time.h>

// processor time in microseconds
static double spent() { timespec t; clock_gettime(CLOCK_PROCESS_CPUTIME_ID, &t); return t.tv_sec * 1e6 + t.tv_nsec / 1e3; }

typedef std::vector<u64> Row;
typedef std::vector<Row> Rows;

struct Words {  // the words of ChaCha20, block by block
    u32 in[16], out[16]; int at = 16;
    Words(u64 stream) {
        static const u32 c[4] = {0x61707865, 0x3320646e, 0x79622d32, 0x6b206574};
        for (int i = 0; i < 16; i++) in[i] = i < 4 ? c[i] : 0;
        in[14] = (u32)stream; in[15] = (u32)(stream >> 32);
    }
    static void quarter(u32 *x, int a, int b, int c, int d) {
        auto rot = [](u32 v, int r) { return v << r | v >> (32 - r); };
        x[a] += x[b]; x[d] = rot(x[d] ^ x[a], 16); x[c] += x[d]; x[b] = rot(x[b] ^ x[c], 12);
        x[a] += x[b]; x[d] = rot(x[d] ^ x[a], 8); x[c] += x[d]; x[b] = rot(x[b] ^ x[c], 7);
    }
    u32 next() {
        if (at == 16) {
            memcpy(out, in, sizeof in);
            for (int r = 0; r < 10; r++) {
                for (int i = 0; i < 4; i++) quarter(out, i, 4 + i, 8 + i, 12 + i);
                for (int i = 0; i < 4; i++) quarter(out, i, 4 + (i + 1) % 4, 8 + (i + 2) % 4, 12 + (i + 3) % 4);
            }
            for (int i = 0; i < 16; i++) out[i] += in[i];
            if (!++in[12]) in[13]++;
            at = 0;
        }
        return out[at++];
    }
    u64 uniform(u64 q) {
        u64 a = next(), b = next(), c = next(), d = next();
        return (u64)((((u128)(c | d << 32) << 64) | (a | b << 32)) % q);
    }
    i64 error() { u32 w = next(); return __builtin_popcount(w & 1023) - __builtin_popcount(w >> 10 & 1023); }
    i64 small() { u32 w = next(); return (i64)(w & 1) - (i64)(w >> 1 & 1); }
};

struct Modulus { u64 q, zeta, psi; Blue b; Row ic, ics; };

struct Table {
    int m, p, n, weight, slots;
    std::vector<Modulus> chain;
    std::vector<i64> phi, eps;
    std::vector<int> units, T, inverse, filled;  // filled: the places below n of Phi_m that are not 0
    Row x;

    // the values at the units of n residues
    Row forward(const Modulus &k, const Row &a) const {
        Row buf(k.b.n2), v(n);
        for (int i = 0; i < n; i++) buf[i] = lazy(a[i], k.b.c[i], k.b.cs[i], k.q);
        k.b.convolve(buf.data(), k.b.f, k.b.fs);
        for (int i = 0; i < n; i++) { int j = units[i]; v[i] = csub(lazy(buf[j], k.b.c[j], k.b.cs[j], k.q), k.q); }
        return v;
    }
    // the n residues with these values at the units
    Row inverse_of(const Modulus &k, const Row &v) const {
        Row buf(k.b.n2), a(m);
        for (int i = 0; i < n; i++) { int j = units[i]; buf[j] = lazy(v[i], k.b.ic[j], k.b.ics[j], k.q); }
        k.b.convolve(buf.data(), k.b.g, k.b.gs);
        for (int i = 0; i < m; i++) a[i] = csub(lazy(buf[i], k.b.icm[i], k.b.icms[i], k.q), k.q);
        for (int i = m - 1; i >= n; i--)
            if (a[i]) for (int j : filled) {
                u64 t = mulm(a[i], (u64)(phi[j] < 0 ? -phi[j] : phi[j]), k.q);
                a[i - n + j] = phi[j] < 0 ? (a[i - n + j] + t) % k.q : (a[i - n + j] + k.q - t) % k.q;
            }
        a.resize(n);
        return a;
    }
    static u64 residue(i64 x, u64 q) { i64 r = x % (i64)q; return (u64)(r < 0 ? r + (i64)q : r); }
    Rows values(const std::vector<i64> &a) const {
        Rows out;
        for (auto &k : chain) { Row r(n); for (int i = 0; i < n; i++) r[i] = residue(a[i], k.q); out.push_back(forward(k, r)); }
        return out;
    }
    // the sum of (x_e * eps)(X^k), folded once
    std::vector<i64> encode() const {
        Row sums(m, 0);  // sums of products below p^2, of which fewer than 2^30 are added
        for (int e = 0; e < slots; e++) {
            int at = 0;
            for (int i = 0; i < n; i++) {
                sums[at] += x[e] * (u64)eps[i];
                at += inverse[e];
                if (at >= m) at -= m;
            }
        }
        for (auto &c : sums) c %= p;
        for (int i = m - 1; i >= n; i--)
            if (sums[i]) for (int j : filled) sums[i - n + j] = residue((i64)sums[i - n + j] - (i64)sums[i] * phi[j], p);
        std::vector<i64> out(sums.begin(), sums.begin() + n);
        for (auto &c : out) if (2 * c > p) c -= p;
        return out;
    }
};

static void put(std::string &out, const Rows &rows) {
    for (auto &r : rows) out.append((const char *)r.data(), r.size() * 8);
}
static void save(const std::string &name, const std::string &text) { std::ofstream(name, std::ios::binary) << text; }

int main(int argc, char **argv) {
    int rounds = atoi(argv[1]); std::string folder = argv[2];
    Table t; int levels;
    std::cin >> t.m >> t.p >> t.n >> t.weight >> levels;
    t.chain.resize(levels);
    int n2 = 1; while (n2 < 2 * t.m - 1) n2 *= 2;
    for (auto &k : t.chain) { std::cin >> k.q >> k.zeta >> k.psi; k.b.build(t.m, k.q, k.zeta, k.psi, n2); k.ic = k.b.ic; k.ics = k.b.ics; }
    t.phi.resize(t.n + 1); for (auto &c : t.phi) std::cin >> c;
    for (int j = 0; j < t.n; j++) if (t.phi[j]) t.filled.push_back(j);
    t.eps.resize(t.n); for (auto &c : t.eps) std::cin >> c;
    std::cin >> t.slots; t.T.resize(t.slots); for (auto &c : t.T) std::cin >> c;
    t.x.resize(t.slots); for (auto &c : t.x) std::cin >> c;
    for (int j = 1; j < t.m; j++) { int a = j, b = t.m; while (b) { int r = a % b; a = b; b = r; } if (a == 1) t.units.push_back(j); }
    for (int e : t.T) t.inverse.push_back((int)invm(e, t.m));
    CHECK((int)t.units.size() == t.n);
    double least[4] = {1e18, 1e18, 1e18, 1e18};
    for (int r = 0; r < rounds; r++) {
        double at = spent();
        // keygen
        std::vector<i64> s(t.n, 0);
        { Words w(1); std::vector<int> order(t.n); for (int i = 0; i < t.n; i++) order[i] = i;
          for (int i = 0; i < t.weight; i++) { int j = i + (int)w.uniform(t.n - i); std::swap(order[i], order[j]); s[order[i]] = w.next() & 1 ? -1 : 1; } }
        std::string sk; for (i64 c : s) sk.push_back((char)c);
        least[0] = std::min(least[0], spent() - at); at = spent();
        // pubkey
        Rows a, b;
        { Words w(2); Rows residues; for (auto &k : t.chain) { Row r(t.n); for (auto &c : r) c = w.uniform(k.q); residues.push_back(r); }
          for (size_t i = 0; i < t.chain.size(); i++) a.push_back(t.forward(t.chain[i], residues[i]));
          std::vector<i64> e(t.n); for (auto &c : e) c = w.error();
          Rows sv = t.values(s), ev = t.values(e);
          for (size_t i = 0; i < t.chain.size(); i++) { u64 q = t.chain[i].q; Row row(t.n);
              for (int j = 0; j < t.n; j++) row[j] = ((q - mulm(a[i][j], sv[i][j], q)) % q + mulm(t.p, ev[i][j], q)) % q;
              b.push_back(row); } }
        std::string pk; put(pk, b); put(pk, a);
        least[1] = std::min(least[1], spent() - at); at = spent();
        // encrypt
        Rows c0, c1;
        { Words w(3); std::vector<i64> u(t.n), e0(t.n), e1(t.n);
          for (auto &c : u) c = w.small();
          for (auto &c : e0) c = w.error();
          for (auto &c : e1) c = w.error();
          Rows uv = t.values(u), v0 = t.values(e0), v1 = t.values(e1), xv = t.values(t.encode());
          for (size_t i = 0; i < t.chain.size(); i++) { u64 q = t.chain[i].q; Row r0(t.n), r1(t.n);
              for (int j = 0; j < t.n; j++) {
                  r0[j] = ((mulm(b[i][j], uv[i][j], q) + mulm(t.p, v0[i][j], q)) % q + xv[i][j]) % q;
                  r1[j] = (mulm(a[i][j], uv[i][j], q) + mulm(t.p, v1[i][j], q)) % q; }
              c0.push_back(r0); c1.push_back(r1); } }
        std::string ct; put(ct, c0); put(ct, c1);
        least[2] = std::min(least[2], spent() - at); at = spent();
        // decrypt
        Row slots(t.slots);
        { Rows sv = t.values(s), opened;
          for (size_t i = 0; i < t.chain.size(); i++) { u64 q = t.chain[i].q; Row row(t.n);
              for (int j = 0; j < t.n; j++) row[j] = (c0[i][j] + mulm(c1[i][j], sv[i][j], q)) % q;
              opened.push_back(t.inverse_of(t.chain[i], row)); }
          size_t L = t.chain.size();
          Rows inv(L, Row(L)); for (size_t j = 0; j < L; j++) for (size_t i = 0; i < j; i++) inv[j][i] = invm(t.chain[i].q, t.chain[j].q);
          Row plain(t.n); std::vector<i64> digits(L);
          for (int c = 0; c < t.n; c++) {  // balanced digits by Garner's steps, then their sum modulo p
              for (size_t j = 0; j < L; j++) { u64 q = t.chain[j].q, v = opened[j][c];
                  for (size_t i = 0; i < j; i++) v = mulm((v + q - Table::residue(digits[i], q)) % q, inv[j][i], q);
                  digits[j] = 2 * v > q ? (i64)v - (i64)q : (i64)v; }
              u64 sum = 0; for (size_t j = L; j-- > 0;) sum = (Table::residue(digits[j], t.p) + t.chain[j].q % t.p * sum) % t.p;
              plain[c] = sum; }
          // the value at eta^T(e) in Z_p, eta = -factor[0]: read as the last number of the numbers
          static u64 eta = 0; if (!eta) std::cin >> eta;
          Row powers(t.m); powers[0] = 1; for (int i = 1; i < t.m; i++) powers[i] = powers[i - 1] * eta % t.p;
          for (int e = 0; e < t.slots; e++) {
              u64 v = 0; int at = 0;
              for (int i = 0; i < t.n; i++) { v += plain[i] * powers[at]; at += t.T[e]; if (at >= t.m) at -= t.m; }
              slots[e] = v % t.p; } }
        least[3] = std::min(least[3], spent() - at);
        CHECK(slots == t.x);
        if (!r) { save(folder + "/k.sk", sk); save(folder + "/k.pk", pk); save(folder + "/c.ct", ct); }
    }
    const char *names[4] = {"keygen", "pubkey", "encrypt", "decrypt"};
    for (int i = 0; i < 4; i++) printf("%s %.1f\n", names[i], least[i]);
}
