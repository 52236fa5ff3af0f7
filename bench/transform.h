// One row of all m values at the powers of zeta^2 by Bluestein's convolution, in plain C++. Constant factors stand beside their
// quotients (Shoup's products), residues are reduced lazily, and the two-power transform takes two levels at once.
#pragma once
#include <algorithm>
#include <chrono>
#include <cstdint>
#include <cstdio>
#include <cstdlib>
#include <cstring>
#include <vector>

typedef uint32_t u32;
typedef uint64_t u64;
typedef int64_t i64;
typedef unsigned __int128 u128;

#define CHECK(c) do { if (!(c)) { fprintf(stderr, "check failed, %s line %d: %s\n", __FILE__, __LINE__, #c); exit(1); } } while (0)

// ---------------------------------------------------------------- word arithmetic
static inline u64 mulhi(u64 a, u64 b) { return (u64)(((u128)a * b) >> 64); }
static inline u64 csub(u64 x, u64 q) { return std::min(x, x - q); }  // x mod q for x < 2q; x - q wraps to a greater word
static inline u64 pre(u64 w, u64 q) { return (u64)(((u128)w << 64) / q); }
// w*y mod q in [0, 2q), for every 64-bit y, w < q, ws = pre(w, q)
static inline u64 lazy(u64 y, u64 w, u64 ws, u64 q) { return w * y - mulhi(ws, y) * q; }

static u64 mulm(u64 a, u64 b, u64 q) { return (u64)((u128)a * b % q); }
static u64 powm(u64 a, u64 e, u64 q) {
    u64 r = 1 % q;
    for (a %= q; e; e >>= 1, a = mulm(a, a, q)) if (e & 1) r = mulm(r, a, q);
    return r;
}
static u64 invm(u64 a, u64 q) {  // a and q without common divisor
    __int128 r0 = q, r1 = a % q, t0 = 0, t1 = 1;
    while (r1) { __int128 k = r0 / r1, x = r0 - k * r1; r0 = r1; r1 = x; x = t0 - k * t1; t0 = t1; t1 = x; }
    CHECK(r0 == 1);
    return (u64)(t0 < 0 ? t0 + q : t0);
}


// ---------------------------------------------------------------- two-power transforms
// Splits X^len - root^e0 down to linear factors. Forward: natural order in, tree order out.
struct Ntt {
    int len = 0; u64 q = 0;
    std::vector<u64> w, ws, iw, iws;
    u64 sc = 0, scs = 0, lw = 0, lws = 0;  // 1/len, and the last inverse twiddle times 1/len
    std::vector<u32> exp;                  // exponent of root at output place i
    void build(int n, u64 q_, u64 root, u64 order, u64 e0) {
        len = n; q = q_;
        w.assign(n, 0); ws = iw = iws = w;
        std::vector<u64> pw(order); pw[0] = 1;
        for (u64 i = 1; i < order; i++) pw[i] = mulm(pw[i - 1], root, q);
        CHECK(mulm(pw[order - 1], root, q) == 1 && pw[order / 2] == q - 1);
        std::vector<u64> e{e0 % order}, f;
        if (e0 == 0) e[0] = 0;
        for (int mm = 1; mm < n; mm <<= 1) {
            f.assign(2 * mm, 0);
            for (int i = 0; i < mm; i++) {
                CHECK(e[i] % 2 == 0);
                u64 c = e[i] / 2;
                w[mm + i] = pw[c]; ws[mm + i] = pre(pw[c], q);
                u64 ic = pw[(order - c) % order];
                iw[mm + i] = ic; iws[mm + i] = pre(ic, q);
                f[2 * i] = c; f[2 * i + 1] = (c + order / 2) % order;
            }
            e.swap(f);
        }
        exp.assign(e.begin(), e.end());
        sc = invm(n % q, q); scs = pre(sc, q);
        lw = mulm(iw[1], sc, q); lws = pre(lw, q);
    }
    // two levels at once: blocks of 4h words, h = t/2
    template <int H> void quad_fwd(u64 *a, int mm, int hh) const {
        const u64 q = this->q, q2 = 2 * q;
        const int h = H ? H : hh;
        for (int i = 0; i < mm; i++, a += 4 * (size_t)h) {
            const u64 W1 = w[mm + i], S1 = ws[mm + i], W2 = w[2 * (mm + i)], S2 = ws[2 * (mm + i)], W3 = w[2 * (mm + i) + 1], S3 = ws[2 * (mm + i) + 1];
            u64 *__restrict A = a, *__restrict B = a + h, *__restrict C = a + 2 * h, *__restrict D = a + 3 * h;
            for (int k = 0; k < h; k++) {
                u64 c = lazy(C[k], W1, S1, q), d = lazy(D[k], W1, S1, q), x = csub(A[k], q2), y = csub(B[k], q2);
                u64 b1 = y + d, d1 = y - d + q2, a1 = csub(x + c, q2), c1 = csub(x - c + q2, q2);
                u64 u = lazy(b1, W2, S2, q), v = lazy(d1, W3, S3, q);
                A[k] = a1 + u; B[k] = a1 - u + q2; C[k] = c1 + v; D[k] = c1 - v + q2;
            }
        }
    }
    // input below 4q, output below 4q
    void forward_lazy(u64 *a) const {
        const u64 q = this->q, q2 = 2 * q;
        int mm = 1, h = len / 4;
        if (__builtin_ctz(len) & 1) {  // an odd number of levels: the first alone
            const u64 W = w[1], S = ws[1]; u64 *X = a, *Y = a + len / 2;
            for (int k = 0; k < len / 2; k++) { u64 x = csub(X[k], q2), u = lazy(Y[k], W, S, q); X[k] = x + u; Y[k] = x - u + q2; }
            mm = 2; h = len / 8;
        }
        for (; h > 4; h >>= 2, mm <<= 2) quad_fwd<0>(a, mm, h);
        if (h == 4) { quad_fwd<4>(a, mm, 4); h = 1; mm <<= 2; }
        quad_fwd<1>(a, mm, 1);
    }
    void forward(u64 *a) const {
        forward_lazy(a);
        for (int i = 0; i < len; i++) a[i] = csub(csub(a[i], 2 * q), q);
    }
    template <int H> void quad_inv(u64 *a, int mm, int hh) const {
        const u64 q = this->q, q2 = 2 * q;
        const int h = H ? H : hh;
        for (int i = 0; i < mm; i++, a += 4 * (size_t)h) {
            const u64 W1 = iw[mm + i], S1 = iws[mm + i], W2 = iw[2 * (mm + i)], S2 = iws[2 * (mm + i)], W3 = iw[2 * (mm + i) + 1], S3 = iws[2 * (mm + i) + 1];
            u64 *__restrict A = a, *__restrict B = a + h, *__restrict C = a + 2 * h, *__restrict D = a + 3 * h;
            for (int k = 0; k < h; k++) {
                u64 x = A[k], y = B[k], z = C[k], t = D[k];
                u64 a1 = csub(x + y, q2), b1 = lazy(x - y + q2, W2, S2, q), c1 = csub(z + t, q2), d1 = lazy(z - t + q2, W3, S3, q);
                A[k] = csub(a1 + c1, q2); C[k] = lazy(a1 - c1 + q2, W1, S1, q);
                B[k] = csub(b1 + d1, q2); D[k] = lazy(b1 - d1 + q2, W1, S1, q);
            }
        }
    }
    // input below 2q, output below 2q, 1/len included
    void inverse_lazy(u64 *a) const {
        const u64 q = this->q, q2 = 2 * q;
        int h = 1, mm = len / 4;
        quad_inv<1>(a, mm, 1); h = 4; mm >>= 2;
        if (mm > 1 || h * 4 == len) { quad_inv<4>(a, mm, 4); h = 16; mm >>= 2; }
        for (; mm >= 2; h <<= 2, mm >>= 2) quad_inv<0>(a, mm, h);
        if (mm == 1) {  // an even number of levels: two are left
            quad_inv<0>(a, 1, h);
            for (int k = 0; k < len; k++) a[k] = lazy(a[k], sc, scs, q);
            return;
        }
        u64 *X = a, *Y = a + len / 2;
        for (int k = 0; k < len / 2; k++) {
            u64 x = X[k], y = Y[k];
            X[k] = lazy(x + y, sc, scs, q); Y[k] = lazy(x - y + q2, lw, lws, q);
        }
    }
    void inverse(u64 *a) const {
        inverse_lazy(a);
        for (int i = 0; i < len; i++) a[i] = csub(a[i], q);
    }
};

// Bluestein: all m values at omega^j, omega = zeta^2, by one cyclic convolution of length N2
struct Blue {
    int m = 0, n2 = 0; u64 q = 0;
    Ntt t;
    std::vector<u64> c, cs, ic, ics, f, fs, g, gs;  // chirps, inverse chirps (1/m in the last), filters
    std::vector<u64> icm, icms;
    void build(int m_, u64 q_, u64 zeta, u64 psi, int n2_) {
        m = m_; q = q_; n2 = n2_;
        t.build(n2, q, psi, n2, 0);
        std::vector<u64> pw(2 * m); pw[0] = 1;
        for (int i = 1; i < 2 * m; i++) pw[i] = mulm(pw[i - 1], zeta, q);
        u64 minv = invm(m, q);
        c.resize(m); cs = ic = ics = icm = icms = c; f.assign(n2, 0); g = f; fs = gs = f;
        for (int i = 0; i < m; i++) {
            u64 e = (u64)i * i % (2 * m), b = (2 * m - e) % (2 * m);
            c[i] = pw[e]; cs[i] = pre(c[i], q);
            ic[i] = pw[b]; ics[i] = pre(ic[i], q);
            icm[i] = mulm(ic[i], minv, q); icms[i] = pre(icm[i], q);
            f[i] = pw[b]; g[i] = pw[e];
            if (i) { f[n2 - i] = pw[b]; g[n2 - i] = pw[e]; }
        }
        t.forward(f.data()); t.forward(g.data());
        for (int i = 0; i < n2; i++) { fs[i] = pre(f[i], q); gs[i] = pre(g[i], q); }
    }
    // k coefficients in; the lazy values times chirp are left to the caller through buf
    void convolve(u64 *buf, const std::vector<u64> &h, const std::vector<u64> &hs) const {
        t.forward_lazy(buf);
        for (int i = 0; i < n2; i++) buf[i] = lazy(buf[i], h[i], hs[i], q);
        t.inverse_lazy(buf);
    }
};

static double now() { return std::chrono::duration<double, std::micro>(std::chrono::steady_clock::now().time_since_epoch()).count(); }
