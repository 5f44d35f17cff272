// Measures the merging of equal records and Tipsify's order, on inputs made here from fixed seeds, beside libmeshoptimizer where it was
// built in (WITH_MESHOPTIMIZER). Each time is the best of several runs, in processor time. Before an input is timed, the answers are
// looked at: another merging, or an order that isn't of the same triangles, ends the program with status 1.
//
//   orders [--records COUNT] [--triangles COUNT] [--runs COUNT]
//
// The first table has the merging of records, with the heap that it takes at most, in bytes a record; its last line has records that were
// chosen against a hasher without a key. The second table has the orders.
#include <malloc.h>

#include <algorithm>
#include <array>
#include <cstddef>
#include <cstdint>
#include <cstdio>
#include <cstdlib>
#include <cstring>
#include <ctime>
#include <functional>
#include <string>
#include <utility>
#include <vector>

#ifdef WITH_MESHOPTIMIZER
#include <meshoptimizer.h>
#endif

namespace {

// What is on the heap for the library that is measured, and what was at most.
size_t held = 0, most_held = 0;

void* counted(void* block) {
    held += malloc_usable_size(block);
    most_held = std::max(most_held, held);
    return block;
}

void* take(size_t size) { return counted(malloc(size)); }

void give(void* block) {
    held -= malloc_usable_size(block);
    free(block);
}

}  // namespace

// The static library of gp_orders_c: a slice is a pointer and a length.
extern "C" {
uint32_t gp_orders_c_merge(const uint8_t* bytes, size_t len, size_t size, uint32_t* places, size_t room, uint32_t* count);
uint32_t gp_orders_c_tipsify(const uint32_t* list, size_t len, size_t n, uint32_t* order, size_t room);

// The heap that the static library asks for.
struct Tried {
    bool ok;
    void* block;
};
Tried rattle_alloc(size_t size, size_t) {
    void* block = take(size);
    return {block != nullptr, block};
}
Tried rattle_realloc(void* old, size_t, size_t size, size_t) {
    size_t before = malloc_usable_size(old);
    void* block = realloc(old, size + (size == 0));
    if (block != nullptr) held -= before, counted(block);
    return {block != nullptr, block};
}
void rattle_dealloc(void* block) { give(block); }
}

namespace {

using Bytes = std::vector<uint8_t>;
using Indices = std::vector<uint32_t>;

int runs = 5;

// xorshift64*, so that the inputs are the same on each machine.
class Random {
  public:
    explicit Random(uint64_t seed) : state(seed) {}
    uint32_t operator()() {
        state ^= state >> 12;
        state ^= state << 25;
        state ^= state >> 27;
        return uint32_t((state * 0x2545F4914F6CDD1DULL) >> 32);
    }
    uint32_t below(uint32_t limit) { return uint32_t((uint64_t((*this)()) * limit) >> 32); }

  private:
    uint64_t state;
};

[[noreturn]] void fail(const std::string& why) {
    fprintf(stderr, "%s\n", why.c_str());
    exit(1);
}

void must(uint32_t answer) {
    if (answer != 0) fail("the library answered " + std::to_string(answer));
}

double processor_seconds() {
    timespec now;
    clock_gettime(CLOCK_PROCESS_CPUTIME_ID, &now);
    return double(now.tv_sec) + double(now.tv_nsec) / 1e9;
}

double best_seconds(const std::function<void()>& work) {
    double best = 1e9;
    for (int k = 0; k < runs; ++k) {
        double start = processor_seconds();
        work();
        best = std::min(best, processor_seconds() - start);
    }
    return best;
}

// Records of random bytes: `distinct` of them, each as often as the others, in any order.
Bytes records(size_t count, size_t size, size_t distinct) {
    Random random(size + distinct);
    Indices which(count);
    for (size_t k = 0; k < count; ++k) which[k] = uint32_t(k % distinct);
    for (size_t k = count; k > 1; --k) std::swap(which[k - 1], which[random.below(uint32_t(k))]);
    Bytes values(distinct * size), out(count * size);
    for (uint8_t& byte : values) byte = uint8_t(random());
    for (size_t k = 0; k < count; ++k) memcpy(&out[k * size], &values[which[k] * size], size);
    return out;
}

uint64_t turned(uint64_t word, int by) { return word << by | word >> (64 - by); }

// SipHash-1-3 of 12 bytes with the key 0, as std's hasher has it without a key of one's own.
uint64_t plain_hash(const uint8_t* bytes) {
    uint64_t v0 = 0x736f6d6570736575, v1 = 0x646f72616e646f6d, v2 = 0x6c7967656e657261, v3 = 0x7465646279746573;
    auto round = [&] {
        v0 += v1, v1 = turned(v1, 13) ^ v0, v0 = turned(v0, 32);
        v2 += v3, v3 = turned(v3, 16) ^ v2;
        v0 += v3, v3 = turned(v3, 21) ^ v0;
        v2 += v1, v1 = turned(v1, 17) ^ v2, v2 = turned(v2, 32);
    };
    uint64_t first = 0, last = uint64_t(12) << 56;
    memcpy(&first, bytes, 8), memcpy(&last, bytes + 8, 4);
    v3 ^= first, round(), v0 ^= first;
    v3 ^= last, round(), v0 ^= last;
    v2 ^= 0xff, round(), round(), round();
    return v0 ^ v1 ^ v2 ^ v3;
}

// Different records of 12 bytes that a stranger found: without a key the search for each begins at slot 0 of 2 * count + 1.
Bytes records_at_one_slot(size_t count) {
    Bytes out;
    uint8_t record[12] = {};
    for (uint64_t tried = 0; out.size() < 12 * count; ++tried) {
        memcpy(record, &tried, 8);
        if (plain_hash(record) % (2 * count + 1) == 0) out.insert(out.end(), record, record + 12);
    }
    return out;
}

void merge_line(const std::string& name, const Bytes& bytes, size_t size) {
    size_t count = bytes.size() / size;
    Indices places(count);
    uint32_t found = 0;
    held = most_held = 0;
    double ours = best_seconds([&] { must(gp_orders_c_merge(bytes.data(), bytes.size(), size, places.data(), places.size(), &found)); });
    double heap = double(most_held) / double(count);
    printf("| %-22s | %4zu | %8u | %9.1f | %6.1f |", name.c_str(), size, found, ours * 1e9 / double(count), heap);
#ifdef WITH_MESHOPTIMIZER
    Indices remap(count);
    size_t theirs_found = 0;
    held = most_held = 0;
    double theirs = best_seconds([&] { theirs_found = meshopt_generateVertexRemap<uint32_t>(remap.data(), nullptr, count, bytes.data(), count, size); });
    if (theirs_found != found || remap != places) fail("libmeshoptimizer merges other records of " + name);
    printf(" %9.1f | %6.1f | %5.2f |\n", theirs * 1e9 / double(count), double(most_held) / double(count) + 4, ours / theirs);
#else
    printf(" %9s | %6s | %5s |\n", "", "", "");
#endif
    fflush(stdout);
}

// The triangles of a grid of squares, row by row.
Indices grid(size_t triangles) {
    Indices out;
    const uint32_t wide = 1000;
    for (uint32_t square = 0; out.size() < 3 * triangles; ++square) {
        uint32_t row = square / wide, a = row * (wide + 1) + square % wide, b = a + 1, c = a + wide + 1, d = c + 1;
        for (uint32_t index : {a, c, b, b, c, d}) out.push_back(index);
    }
    out.resize(3 * triangles);
    return out;
}

// The same triangles in another order.
Indices shuffled(Indices out) {
    Random random(7);
    for (size_t k = out.size() / 3; k > 1; --k) {
        size_t other = random.below(uint32_t(k));
        for (size_t corner = 0; corner < 3; ++corner) std::swap(out[3 * (k - 1) + corner], out[3 * other + corner]);
    }
    return out;
}

// Triangles that share nothing, in an order that jumps about.
Indices apart(size_t triangles) {
    Indices out(3 * triangles);
    for (size_t k = 0; k < triangles; ++k) {
        for (size_t corner = 0; corner < 3; ++corner) out[3 * k + corner] = uint32_t(3 * (648057 * k % triangles) + corner);
    }
    return out;
}

// One vertex with all triangles.
Indices fan(size_t triangles) {
    Indices out;
    for (uint32_t k = 1; k <= triangles; ++k) {
        for (uint32_t index : {0u, k, k + 1}) out.push_back(index);
    }
    return out;
}

// How often a cache of 16 vertices is missed.
size_t misses(const Indices& list) {
    std::array<uint32_t, 16> cache;
    cache.fill(~0u);
    size_t at = 0, count = 0;
    for (uint32_t vertex : list) {
        if (std::find(cache.begin(), cache.end(), vertex) != cache.end()) continue;
        cache[at++ % 16] = vertex;
        ++count;
    }
    return count;
}

std::vector<std::array<uint32_t, 3>> sorted_triangles(const Indices& list) {
    std::vector<std::array<uint32_t, 3>> out(list.size() / 3);
    for (size_t k = 0; k < out.size(); ++k) out[k] = {list[3 * k], list[3 * k + 1], list[3 * k + 2]};
    std::sort(out.begin(), out.end());
    return out;
}

void order_line(const std::string& name, const Indices& list) {
    size_t n = *std::max_element(list.begin(), list.end()) + 1u;
    double triangles = double(list.size()) / 3;
    Indices order(list.size());
    held = most_held = 0;
    double ours = best_seconds([&] { must(gp_orders_c_tipsify(list.data(), list.size(), n, order.data(), order.size())); });
    if (sorted_triangles(order) != sorted_triangles(list)) fail("the order has other triangles of " + name);
    printf("| %-22s | %8.0f | %6.3f | %8.1f | %6.1f | %6.3f |", name.c_str(), triangles, double(misses(list)) / triangles, triangles / ours / 1e6, double(most_held) / triangles,
           double(misses(order)) / triangles);
#ifdef WITH_MESHOPTIMIZER
    held = most_held = 0;
    double theirs = best_seconds([&] { meshopt_optimizeVertexCacheFifo(order.data(), list.data(), list.size(), n, 16); });
    printf(" %8.1f | %6.1f | %6.3f | %5.2f |\n", triangles / theirs / 1e6, double(most_held) / triangles, double(misses(order)) / triangles, ours / theirs);
#else
    printf(" %8s | %6s | %6s | %5s |\n", "", "", "", "");
#endif
    fflush(stdout);
}

size_t number(const char* word) { return size_t(strtoull(word, nullptr, 10)); }

}  // namespace

int main(int argc, char** argv) {
    size_t count = 1 << 20, triangles = 1000000;
    for (int k = 1; k + 1 < argc; k += 2) {
        std::string word = argv[k];
        if (word == "--records") count = number(argv[k + 1]);
        else if (word == "--triangles") triangles = number(argv[k + 1]);
        else if (word == "--runs") runs = int(number(argv[k + 1]));
        else fail("no such word: " + word);
    }
#ifdef WITH_MESHOPTIMIZER
    meshopt_setAllocator(take, give);
#endif
    if (count != 0) {
        printf("| records                | size | distinct | ns/record | bytes  | their ns  | bytes  | time  |\n");
        printf("|------------------------|------|----------|-----------|--------|-----------|--------|-------|\n");
        for (size_t size : {12, 32, 64}) {
            merge_line("half of them repeated", records(count, size, count / 2), size);
            merge_line("all different", records(count, size, count), size);
            merge_line("one repeated", records(count, size, 1), size);
        }
        merge_line("8192 different", records(8192, 12, 8192), 12);
        merge_line("8192 at one plain slot", records_at_one_slot(8192), 12);
    }
    if (triangles != 0) {
        printf("\n| triangles              | count    | misses | Mtri/s   | bytes  | misses | their    | bytes  | misses | time  |\n");
        printf("|------------------------|----------|--------|----------|--------|--------|----------|--------|--------|-------|\n");
        order_line("a grid", grid(triangles));
        order_line("the grid shuffled", shuffled(grid(triangles)));
        order_line("triangles apart", apart(triangles));
        order_line("a fan", fan(triangles));
    }
}
