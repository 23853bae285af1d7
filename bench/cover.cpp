// A plain bitset program for the cover, to compare speeds with: the same rule, the same networks, no proofs.
// Usage: cover KIND N SEED, where KIND is sparse, timetable or dense. Prints the counts and the seconds that the cover took.
#include <algorithm>
#include <chrono>
#include <cstdint>
#include <cstdio>
#include <cstdlib>
#include <cstring>
#include <string>
#include <vector>

using Word = uint64_t;

// The numbers that both programs draw (splitmix64).
struct Random {
    uint64_t state;
    uint64_t next() {
        uint64_t z = (state += 0x9e3779b97f4a7c15ull);
        z = (z ^ (z >> 30)) * 0xbf58476d1ce4e5b9ull;
        z = (z ^ (z >> 27)) * 0x94d049bb133111ebull;
        return z ^ (z >> 31);
    }
    uint64_t below(uint64_t n) { return next() % n; }
};

struct Network {
    size_t count, row;  // literals, words of a row
    std::vector<Word> words;
    explicit Network(size_t n) : count(2 * n), row((2 * n + 63) / 64), words(count * row) {}
    bool has(size_t u, size_t w) const { return words[u * row + w / 64] >> (w % 64) & 1; }
    void add(size_t u, size_t w) {
        if (u / 2 == w / 2) return;
        words[u * row + w / 64] |= Word(1) << (w % 64);
        words[w * row + u / 64] |= Word(1) << (u % 64);
    }
};

static void sparse(Network& net, size_t n, Random& random) {
    for (size_t i = 0; i < 8 * n; ++i) {
        size_t u = random.below(2 * n), w = random.below(2 * n);
        net.add(u, w);
    }
}

// Lectures with 32 slots each; a lecture takes one slot, and no two lectures of a room or a group take the same.
static void timetable(Network& net, size_t n, Random& random) {
    const size_t slots = 32, lectures = n / slots, rooms = lectures / 4 + 1, groups = lectures / 3 + 1;
    std::vector<size_t> room(lectures), first(lectures), second(lectures);
    for (size_t l = 0; l < lectures; ++l) {
        room[l] = random.below(rooms);
        first[l] = random.below(groups);
        second[l] = random.below(groups);
    }
    for (size_t l = 0; l < lectures; ++l) {
        for (size_t s = 0; s < slots; ++s)
            for (size_t t = 0; t < s; ++t) net.add(2 * (l * slots + s), 2 * (l * slots + t));
        for (size_t k = 0; k < l; ++k)
            if (room[l] == room[k] || first[l] == first[k] || first[l] == second[k] || second[l] == first[k] || second[l] == second[k])
                for (size_t s = 0; s < slots; ++s) net.add(2 * (l * slots + s), 2 * (k * slots + s));
    }
}

// Every pair of different variables, of the literals that say that they are true, with probability one half.
static void dense(Network& net, size_t n, Random& random) {
    for (size_t u = 0; u < n; ++u)
        for (size_t w = 0; w < u; ++w)
            if (random.next() >> 63) net.add(2 * u, 2 * w);
}

struct Covered {
    size_t cliques = 0, bicliques = 0, remaining = 0, used = 0;
};

struct Cover {
    Network net;
    std::vector<Word> mask, a, b, shared;
    std::vector<uint32_t> degree;
    std::vector<size_t> members;
    std::vector<int32_t> list;
    Covered covered;

    explicit Cover(const Network& of) : net(of), mask(of.row), a(of.row), b(of.row), shared(of.row), degree(of.count) {}

    static int32_t literal(size_t u) { return u % 2 ? -int32_t(u / 2 + 1) : int32_t(u / 2 + 1); }
    Word* row(size_t u) { return &net.words[u * net.row]; }
    size_t ones(const std::vector<Word>& m) const {
        size_t k = 0;
        for (Word x : m) k += __builtin_popcountll(x);
        return k;
    }

    void grow(size_t u, size_t w) {
        members.clear();
        members.push_back(u);
        members.push_back(w);
        size_t from = (w + 1) / 64;
        for (size_t i = from; i < net.row; ++i) mask[i] = row(u)[i] & row(w)[i];
        if (from < net.row) mask[from] &= ~Word(0) << ((w + 1) % 64);
        while (members.size() < 256) {
            while (from < net.row && !mask[from]) ++from;
            if (from == net.row) break;
            size_t c = 64 * from + __builtin_ctzll(mask[from]);
            members.push_back(c);
            for (size_t i = from; i < net.row; ++i) mask[i] &= row(c)[i];
        }
    }

    void cliques() {
        for (size_t u = 0; u < net.count; ++u)
            for (size_t i = u / 64; i < net.row; ++i) {
                Word seen = i == u / 64 ? ~Word(0) << (u % 64) << 1 : ~Word(0);
                if (i == u / 64 && u % 64 == 63) seen = 0;
                while (Word x = row(u)[i] & seen) {
                    size_t bit = __builtin_ctzll(x), w = 64 * i + bit;
                    seen = bit == 63 ? 0 : seen & (~Word(0) << (bit + 1));
                    grow(u, w);
                    if (members.size() < 6) continue;
                    ++covered.cliques;
                    list.push_back(int32_t(members.size()));
                    for (size_t m : members) list.push_back(literal(m));
                    std::fill(mask.begin(), mask.end(), 0);
                    for (size_t m : members) mask[m / 64] |= Word(1) << (m % 64);
                    for (size_t m : members)
                        for (size_t k = 0; k < net.row; ++k) row(m)[k] &= ~mask[k];
                }
            }
    }

    // The literal outside A with most remaining conflicts into B, the lowest at ties.
    size_t best(size_t& most) {
        size_t chosen = 0;
        long top = -1;
        for (size_t c = 0; c < net.count; ++c) {
            if ((a[c / 64] >> (c % 64) & 1) || long(degree[c]) <= top) continue;
            long k = 0;
            for (size_t i = 0; i < net.row; ++i) k += __builtin_popcountll(row(c)[i] & b[i]);
            if (k > top) top = k, chosen = c;
        }
        most = size_t(std::max(top, 0L));
        return chosen;
    }

    void side(const std::vector<Word>& m) {
        for (size_t i = 0; i < net.row; ++i)
            for (Word x = m[i]; x; x &= x - 1) list.push_back(literal(64 * i + __builtin_ctzll(x)));
    }

    void take(const std::vector<Word>& on, const std::vector<Word>& off) {
        for (size_t i = 0; i < net.row; ++i)
            for (Word x = on[i]; x; x &= x - 1) {
                size_t u = 64 * i + __builtin_ctzll(x);
                uint32_t k = 0;
                for (size_t j = 0; j < net.row; ++j) {
                    row(u)[j] &= ~off[j];
                    k += __builtin_popcountll(row(u)[j]);
                }
                degree[u] = k;
            }
    }

    void bicliques() {
        for (size_t u = 0; u < net.count; ++u) {
            degree[u] = 0;
            for (size_t i = 0; i < net.row; ++i) degree[u] += __builtin_popcountll(row(u)[i]);
        }
        for (;;) {
            size_t c = std::max_element(degree.begin(), degree.end()) - degree.begin();
            if (!degree[c]) return;
            std::fill(a.begin(), a.end(), 0);
            a[c / 64] |= Word(1) << (c % 64);
            std::copy(row(c), row(c) + net.row, b.begin());
            long x = 1, y = degree[c];
            for (;;) {
                size_t k;
                size_t d = best(k);
                if ((x + 1) * long(k) - (x + 1) - long(k) <= x * y - x - y) break;
                a[d / 64] |= Word(1) << (d % 64);
                for (size_t i = 0; i < net.row; ++i) b[i] &= row(d)[i];
                ++x, y = long(k);
            }
            if (x * y - x - y <= 0) return;
            ++covered.bicliques;
            list.push_back(int32_t(-x));
            list.push_back(int32_t(y));
            side(a);
            side(b);
            take(a, b);
            take(b, a);
        }
    }

    Covered run() {
        cliques();
        bicliques();
        for (Word w : net.words) covered.remaining += __builtin_popcountll(w);
        covered.remaining /= 2;
        covered.used = list.size();
        return covered;
    }
};

int main(int argc, char** argv) {
    if (argc != 4) return 2;
    std::string kind = argv[1];
    size_t n = std::strtoul(argv[2], nullptr, 10);
    Random random{std::strtoull(argv[3], nullptr, 10)};
    Network net(n);
    if (kind == "sparse") sparse(net, n, random);
    else if (kind == "timetable") timetable(net, n, random);
    else if (kind == "dense") dense(net, n, random);
    else return 2;
    size_t conflicts = 0;
    for (Word w : net.words) conflicts += __builtin_popcountll(w);
    Cover cover(net);
    auto start = std::chrono::steady_clock::now();
    Covered c = cover.run();
    double seconds = std::chrono::duration<double>(std::chrono::steady_clock::now() - start).count();
    std::printf("%zu conflicts: %zu cliques, %zu bicliques, %zu remaining, %zu numbers\n", conflicts / 2, c.cliques, c.bicliques, c.remaining, c.used);
    std::fprintf(stderr, "%.3f\n", seconds);
}
