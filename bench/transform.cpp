// The yardstick for the crate `bluestein`: one forward, and its tables.
//
//   g++ -std=c++17 -O2 -o transform transform.cpp && ./transform
//
// It prints the least time in nanoseconds of one forward of each length, and the time of its tables.
#include "transform.h"

struct Case { int m; u64 q, zeta, psi; };
static const Case cases[] = {
    {4095, 576460751657656321ull, 147887061098263912ull, 211267643744292339ull},
    {4096, 576460752303415297ull, 20226098809417475ull, 20226098809417475ull},
    {8192, 576460752303210497ull, 482463212294092849ull, 482463212294092849ull},
    {32767, 576460747471716353ull, 79252570555595760ull, 115055955892190805ull},
    {32768, 576460752301785089ull, 68295455694347081ull, 68295455694347081ull},
    {65535, 576460588962938881ull, 312163851332195053ull, 320611419288464500ull},
};

int main() {
    for (Case c : cases) {
        int n2 = 1;
        while (n2 < 2 * c.m - 1) n2 *= 2;
        Blue b;
        double t = now();
        b.build(c.m, c.q, c.zeta, c.psi, n2);
        double made = now() - t, best = 1e18;
        std::vector<u64> buf(n2), a(c.m), v(c.m);
        for (int i = 0; i < c.m; i++) a[i] = (u64)i * 0x9e3779b97f4a7c15ull % c.q;
        for (int r = 0; r < 20; r++) {
            t = now();
            for (int k = 0; k < c.m; k++) buf[k] = lazy(a[k], b.c[k], b.cs[k], c.q);
            memset(buf.data() + c.m, 0, (size_t)(n2 - c.m) * 8);
            b.convolve(buf.data(), b.f, b.fs);
            for (int k = 0; k < c.m; k++) v[k] = csub(lazy(buf[k], b.c[k], b.cs[k], c.q), c.q);
            best = std::min(best, now() - t);
        }
        // the second value, by Horner's rule
        u64 at = mulm(c.zeta, c.zeta, c.q), s = 0;
        for (int k = c.m - 1; k >= 0; k--) s = (mulm(s, at, c.q) + a[k]) % c.q;
        CHECK(v[1] == s);
        printf("tables %d %.0f\nforward %d %.0f\n", c.m, made * 1e3, c.m, best * 1e3);
    }
}
