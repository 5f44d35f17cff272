// Measures the cutting of lists of triangles into meshlets, on inputs made here from fixed seeds, beside libmeshoptimizer where it was
// built in (WITH_MESHOPTIMIZER). Each time is the best of several runs, in processor time, and of ours with the meshlets made and
// given up. libmeshoptimizer takes at most 124 triangles a meshlet here, since it wants a multiple of 4, and ours at most 126.
//
//   meshlets [--triangles COUNT] [--runs COUNT]
#include <malloc.h>

#include <algorithm>
#include <cstddef>
#include <cstdint>
#include <cstdio>
#include <cstdlib>
#include <ctime>
#include <functional>
#include <set>
#include <string>
#include <utility>
#include <vector>

#ifdef WITH_MESHOPTIMIZER
#include <meshoptimizer.h>
#endif

namespace {

// What is on the heap for the library that is measured, and what was at most.
size_t held = 0, most_held = 0;

void* counted(void* block) {
    held += malloc_usable_size(block);
    most_held = std::max(most_held, held);
    return block;
}

void give(void* block) {
    held -= malloc_usable_size(block);
    free(block);
}

}  // namespace

// The static library of gp_meshlets_c: a slice is a pointer and a length.
extern "C" {
uint32_t gp_meshlets_c_count(const uint32_t* list, size_t len, uint64_t* count);

// The heap that the static library asks for.
struct Tried {
    bool ok;
    void* block;
};
Tried rattle_alloc(size_t size, size_t) {
    void* block = counted(malloc(size));
    return {block != nullptr, block};
}
Tried rattle_realloc(void* old, size_t, size_t size, size_t) {
    size_t before = malloc_usable_size(old);
    void* block = realloc(old, size + (size == 0));
    if (block != nullptr) held -= before, counted(block);
    return {block != nullptr, block};
}
void rattle_dealloc(void* block) { give(block); }
}

namespace {

using Indices = std::vector<uint32_t>;

int runs = 5;

// xorshift64*, so that the inputs are the same on each machine.
class Random {
  public:
    explicit Random(uint64_t seed) : state(seed) {}
    uint32_t operator()() {
        state ^= state >> 12;
        state ^= state << 25;
        state ^= state >> 27;
        return uint32_t((state * 0x2545F4914F6CDD1DULL) >> 32);
    }
    uint32_t below(uint32_t limit) { return uint32_t((uint64_t((*this)()) * limit) >> 32); }

  private:
    uint64_t state;
};

[[noreturn]] void fail(const std::string& why) {
    fprintf(stderr, "%s\n", why.c_str());
    exit(1);
}

double processor_seconds() {
    timespec now;
    clock_gettime(CLOCK_PROCESS_CPUTIME_ID, &now);
    return double(now.tv_sec) + double(now.tv_nsec) / 1e9;
}

double best_seconds(const std::function<void()>& work) {
    double best = 1e9;
    for (int k = 0; k < runs; ++k) {
        double start = processor_seconds();
        work();
        best = std::min(best, processor_seconds() - start);
    }
    return best;
}

// The triangles of a grid of squares, row by row, in bands of so many squares: of 1000 as a mesh comes, of 8 as a cache likes it.
Indices grid(size_t triangles, uint32_t band) {
    Indices out;
    const uint32_t wide = 1000;
    for (uint32_t square = 0; out.size() < 3 * triangles; ++square) {
        uint32_t rows = uint32_t(triangles) / 2 / wide + 1, column = square / (band * rows) * band + square % band, row = square % (band * rows) / band;
        uint32_t a = row * (wide + 1) + column, b = a + 1, c = a + wide + 1, d = c + 1;
        for (uint32_t index : {a, c, b, b, c, d}) out.push_back(index);
    }
    out.resize(3 * triangles);
    return out;
}

// The same triangles in another order.
Indices shuffled(Indices out) {
    Random random(7);
    for (size_t k = out.size() / 3; k > 1; --k) {
        size_t other = random.below(uint32_t(k));
        for (size_t corner = 0; corner < 3; ++corner) std::swap(out[3 * (k - 1) + corner], out[3 * other + corner]);
    }
    return out;
}

// One vertex with all triangles.
Indices fan(size_t triangles) {
    Indices out;
    for (uint32_t k = 1; k <= triangles; ++k) {
        for (uint32_t index : {0u, k, k + 1}) out.push_back(index);
    }
    return out;
}

// How many runs there are of at most so many triangles over at most 64 vertices, the plainest way.
size_t runs_of(const Indices& list, size_t most) {
    size_t count = 0, taken = 0;
    std::set<uint32_t> vertices;
    for (size_t k = 0; k < list.size(); k += 3) {
        std::set<uint32_t> with = vertices;
        with.insert({list[k], list[k + 1], list[k + 2]});
        if (taken == 0 || taken == most || with.size() > 64) {
            ++count, taken = 0;
            with = {list[k], list[k + 1], list[k + 2]};
        }
        ++taken;
        vertices = with;
    }
    return count;
}

void line(const std::string& name, const Indices& list) {
    double triangles = double(list.size()) / 3;
    uint64_t count = 0;
    held = most_held = 0;
    double ours = best_seconds([&] {
        if (gp_meshlets_c_count(list.data(), list.size(), &count) != 0) fail("there is no memory");
    });
    if (count != runs_of(list, 126)) fail("other meshlets of " + name);
    printf("| %-24s | %8.0f | %7zu | %7.1f | %6.1f |", name.c_str(), triangles, size_t(count), triangles / ours / 1e6, double(most_held) / triangles);
#ifdef WITH_MESHOPTIMIZER
    size_t n = *std::max_element(list.begin(), list.end()) + 1u;
    std::vector<meshopt_Meshlet> meshlets(meshopt_buildMeshletsBound(list.size(), 64, 124));
    Indices vertices(meshlets.size() * 64);
    std::vector<unsigned char> corners(meshlets.size() * 124 * 3);
    size_t found = 0;
    double theirs = best_seconds([&] { found = meshopt_buildMeshletsScan(meshlets.data(), vertices.data(), corners.data(), list.data(), list.size(), n, 64, 124); });
    if (found != runs_of(list, 124)) fail("libmeshoptimizer cuts otherwise: " + name);
    printf(" %7zu | %7.1f | %5.2f |\n", found, triangles / theirs / 1e6, ours / theirs);
#else
    printf(" %7s | %7s | %5s |\n", "", "", "");
#endif
    fflush(stdout);
}

size_t number(const char* word) { return size_t(strtoull(word, nullptr, 10)); }

}  // namespace

int main(int argc, char** argv) {
    size_t triangles = 1000000;
    for (int k = 1; k + 1 < argc; k += 2) {
        std::string word = argv[k];
        if (word == "--triangles") triangles = number(argv[k + 1]);
        else if (word == "--runs") runs = int(number(argv[k + 1]));
        else fail("no such word: " + word);
    }
    printf("| triangles                | count    | pieces  | Mtri/s  | bytes  | theirs  | Mtri/s  | time  |\n");
    printf("|--------------------------|----------|---------|---------|--------|---------|---------|-------|\n");
    line("a grid", grid(triangles, 1000));
    line("a grid in bands of 8", grid(triangles, 8));
    line("the grid shuffled", shuffled(grid(triangles, 1000)));
    line("a fan", fan(triangles));
    line("one triangle", Indices(3 * triangles));
}
