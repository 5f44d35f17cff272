// Measures the coders of streams, on inputs made here from fixed seeds, beside a copy of the same bytes and, where it was built in
// (WITH_MESHOPTIMIZER), beside libmeshoptimizer. Each time is the best of several runs. Before an input is timed, each library's
// stream is decoded by each library; another answer or other bytes end the program with status 1.
//
//   streams [--elements BYTES] [--triangles COUNT] [--indices COUNT] [--runs COUNT]
//
// The first table has a line for each input and way; the second has the times of one, two and four times the size.
#include <chrono>
#include <cstddef>
#include <cstdint>
#include <cstdio>
#include <cstdlib>
#include <cstring>
#include <functional>
#include <memory>
#include <string>
#include <utility>
#include <vector>

#ifdef WITH_MESHOPTIMIZER
#include <meshoptimizer.h>
#endif

// The static library of gp_library_c: a slice is a pointer and a length.
extern "C" {
int32_t gp_library_c_decode_attributes(const uint8_t* bytes, size_t len, size_t count, size_t stride, uint8_t* dest, size_t dest_len);
uint32_t gp_library_c_encode_attributes(const uint8_t* source, size_t len, size_t count, size_t stride, uint8_t* room, size_t room_len, size_t* size);
int32_t gp_library_c_decode_sequence(const uint8_t* bytes, size_t len, size_t count, size_t stride, uint8_t* dest, size_t dest_len);
uint32_t gp_library_c_encode_sequence(const uint32_t* indices, size_t count, uint8_t* room, size_t room_len, size_t* size);
int32_t gp_library_c_decode_triangles(const uint8_t* bytes, size_t len, size_t count, size_t stride, uint8_t* dest, size_t dest_len);
uint32_t gp_library_c_encode_triangles(const uint32_t* indices, size_t count, uint8_t* room, size_t room_len, size_t* size);

// The heap that the static library asks for.
struct Tried {
    bool ok;
    void* block;
};
Tried rattle_alloc(size_t size, size_t) {
    void* block = malloc(size);
    return {block != nullptr, block};
}
Tried rattle_realloc(void* old, size_t, size_t size, size_t) {
    void* block = realloc(old, size + (size == 0));
    return {block != nullptr, block};
}
void rattle_dealloc(void* block) { free(block); }
}

namespace {

using Bytes = std::vector<uint8_t>;
using Indices = std::vector<uint32_t>;

int runs = 5;

// xorshift64*, so that the inputs are the same on each machine.
class Random {
  public:
    explicit Random(uint64_t seed) : state(seed) {}
    uint32_t operator()() {
        state ^= state >> 12;
        state ^= state << 25;
        state ^= state >> 27;
        return uint32_t((state * 0x2545F4914F6CDD1DULL) >> 32);
    }
    uint32_t below(uint32_t limit) { return uint32_t((uint64_t((*this)()) * limit) >> 32); }

  private:
    uint64_t state;
};

[[noreturn]] void fail(const std::string& why) {
    fprintf(stderr, "%s\n", why.c_str());
    exit(1);
}

double best_seconds(const std::function<void()>& work) {
    double best = 1e9;
    for (int k = 0; k < runs; ++k) {
        auto start = std::chrono::steady_clock::now();
        work();
        double taken = std::chrono::duration<double>(std::chrono::steady_clock::now() - start).count();
        best = taken < best ? taken : best;
    }
    return best;
}

// A coder: both ways, into room that is ample.
struct Coder {
    std::function<size_t(Bytes& room)> encode;
    std::function<void(const Bytes& stream, Bytes& dest)> decode;
};

// An input: its bytes, how many units it has, what a unit is called, and the coders.
struct Input {
    std::string name;
    Bytes plain;
    double units;
    const char* unit;
    size_t room;
    // Whether a decoder gives the plain bytes back; of triangles it may begin each at another corner.
    bool is_exact;
    Coder ours;
    Coder theirs;
};

void must(int64_t answer) {
    if (answer != 0) fail("the library answered " + std::to_string(answer));
}

// Elements whose bytes change little from one to the next, as of a smooth surface: each 16-bit number walks.
Bytes smooth_elements(size_t bytes, size_t stride) {
    Random random(stride);
    Bytes out(bytes / stride * stride);
    std::vector<uint16_t> at(stride / 2, 30000);
    for (size_t from = 0; from < out.size(); from += stride) {
        for (size_t k = 0; k < stride / 2; ++k) {
            at[k] = uint16_t(at[k] + random.below(25) - 12);
            out[from + 2 * k] = uint8_t(at[k]);
            out[from + 2 * k + 1] = uint8_t(at[k] >> 8);
        }
    }
    return out;
}

Bytes random_elements(size_t bytes, size_t stride) {
    Random random(stride + 1000);
    Bytes out(bytes / stride * stride);
    for (uint8_t& byte : out) byte = uint8_t(random());
    return out;
}

// The triangles of a grid of squares, row by row.
Indices grid(size_t triangles) {
    Indices out;
    const uint32_t wide = 1000;
    for (uint32_t square = 0; out.size() < 3 * triangles; ++square) {
        uint32_t row = square / wide, a = row * (wide + 1) + square % wide, b = a + 1, c = a + wide + 1, d = c + 1;
        for (uint32_t index : {a, c, b, b, c, d}) out.push_back(index);
    }
    out.resize(3 * triangles);
    return out;
}

// The same triangles in another order.
Indices shuffled(Indices out) {
    Random random(7);
    for (size_t k = out.size() / 3; k > 1; --k) {
        size_t other = random.below(uint32_t(k));
        for (size_t corner = 0; corner < 3; ++corner) std::swap(out[3 * (k - 1) + corner], out[3 * other + corner]);
    }
    return out;
}

// Triangles of any vertices.
Indices soup(size_t triangles) {
    Random random(11);
    Indices out(3 * triangles);
    for (uint32_t& index : out) index = random.below(1 << 20);
    return out;
}

// A line strip over a shuffled mesh: mostly near the index before, now and then far.
Indices walk(size_t count) {
    Random random(13);
    Indices out(count);
    uint32_t at = 1 << 20;
    for (uint32_t& index : out) {
        at = random.below(16) == 0 ? random.below(1 << 21) : (at + random.below(41) - 20) & ((1 << 21) - 1);
        index = at;
    }
    return out;
}

Bytes as_bytes(const Indices& indices) {
    Bytes out(4 * indices.size());
    memcpy(out.data(), indices.data(), out.size());
    return out;
}

Input attribute_input(const std::string& name, Bytes plain, size_t stride) {
    size_t count = plain.size() / stride;
    auto source = std::make_shared<Bytes>(plain);
    Input input{name, std::move(plain), 0, "MB/s", 0, true, {}, {}};
    input.units = double(input.plain.size()) / 1e6;
    input.room = input.plain.size() + input.plain.size() / 32 + 4096;
    input.ours = {
        [=](Bytes& room) {
            size_t size = 0;
            must(gp_library_c_encode_attributes(source->data(), source->size(), count, stride, room.data(), room.size(), &size));
            return size;
        },
        [=](const Bytes& stream, Bytes& dest) {
            must(gp_library_c_decode_attributes(stream.data(), stream.size(), count, stride, dest.data(), dest.size()));
        }};
#ifdef WITH_MESHOPTIMIZER
    input.theirs = {
        [=](Bytes& room) { return meshopt_encodeVertexBuffer(room.data(), room.size(), source->data(), count, stride); },
        [=](const Bytes& stream, Bytes& dest) {
            if (meshopt_decodeVertexBuffer(dest.data(), count, stride, stream.data(), stream.size()) != 0) fail("libmeshoptimizer refuses " + name);
        }};
#endif
    return input;
}

// The calls of both libraries for one kind of index streams.
struct IndexCalls {
    decltype(&gp_library_c_encode_triangles) our_encode;
    decltype(&gp_library_c_decode_triangles) our_decode;
#ifdef WITH_MESHOPTIMIZER
    size_t (*their_encode)(unsigned char*, size_t, const unsigned int*, size_t);
    int (*their_decode)(void*, size_t, size_t, const unsigned char*, size_t);
#endif
};

Input index_input(const std::string& name, const Indices& indices, double units, const char* unit, bool is_exact, IndexCalls calls) {
    auto source = std::make_shared<Indices>(indices);
    size_t count = indices.size();
    Input input{name, as_bytes(indices), units, unit, 8 * count + 4096, is_exact, {}, {}};
    input.ours = {
        [=](Bytes& room) {
            size_t size = 0;
            must(calls.our_encode(source->data(), count, room.data(), room.size(), &size));
            return size;
        },
        [=](const Bytes& stream, Bytes& dest) {
            must(calls.our_decode(stream.data(), stream.size(), count, 4, dest.data(), dest.size()));
        }};
#ifdef WITH_MESHOPTIMIZER
    input.theirs = {
        [=](Bytes& room) { return calls.their_encode(room.data(), room.size(), source->data(), count); },
        [=](const Bytes& stream, Bytes& dest) {
            if (calls.their_decode(dest.data(), count, 4, stream.data(), stream.size()) != 0) fail("libmeshoptimizer refuses " + name);
        }};
#endif
    return input;
}

Input triangle_input(const std::string& name, const Indices& indices) {
    IndexCalls calls{};
    calls.our_encode = gp_library_c_encode_triangles;
    calls.our_decode = gp_library_c_decode_triangles;
#ifdef WITH_MESHOPTIMIZER
    calls.their_encode = meshopt_encodeIndexBuffer;
    calls.their_decode = meshopt_decodeIndexBuffer;
#endif
    return index_input(name, indices, double(indices.size()) / 3e6, "Mtri/s", false, calls);
}

Input sequence_input(const std::string& name, const Indices& indices) {
    IndexCalls calls{};
    calls.our_encode = gp_library_c_encode_sequence;
    calls.our_decode = gp_library_c_decode_sequence;
#ifdef WITH_MESHOPTIMIZER
    calls.their_encode = meshopt_encodeIndexSequence;
    calls.their_decode = meshopt_decodeIndexSequence;
#endif
    return index_input(name, indices, double(indices.size()) / 1e6, "Midx/s", true, calls);
}

// Each triangle begun at its least corner, which neither coder promises to keep.
Bytes turned(const Bytes& plain) {
    Indices indices(plain.size() / 4);
    memcpy(indices.data(), plain.data(), plain.size());
    for (size_t k = 0; k + 2 < indices.size(); k += 3) {
        uint32_t a = indices[k], b = indices[k + 1], c = indices[k + 2];
        if (b < a && b <= c) indices[k] = b, indices[k + 1] = c, indices[k + 2] = a;
        if (c < a && c < b) indices[k] = c, indices[k + 1] = a, indices[k + 2] = b;
    }
    return as_bytes(indices);
}

struct Stream {
    Bytes bytes;
    double encode_seconds;
    double decode_seconds;
};

Stream timed(const Input& input, const Coder& coder) {
    Bytes room(input.room), dest(input.plain.size());
    size_t size = 0;
    double encode = best_seconds([&] { size = coder.encode(room); });
    if (size == 0) fail("nothing was encoded of " + input.name);
    room.resize(size);
    double decode = best_seconds([&] { coder.decode(room, dest); });
    return {room, encode, decode};
}

Bytes decoded(const Input& input, const Coder& coder, const Bytes& stream) {
    Bytes dest(input.plain.size());
    coder.decode(stream, dest);
    return dest;
}

bool means_the_input(const Input& input, const Bytes& bytes) {
    return input.is_exact ? bytes == input.plain : turned(bytes) == turned(input.plain);
}

void check(const Input& input, const Bytes& stream) {
    Bytes ours = decoded(input, input.ours, stream);
    if (!means_the_input(input, ours)) fail("other bytes of " + input.name);
    if (input.theirs.decode && decoded(input, input.theirs, stream) != ours) fail("libmeshoptimizer has other bytes of " + input.name);
}

double copy_seconds(const Input& input) {
    Bytes dest(input.plain.size());
    return best_seconds([&] { memcpy(dest.data(), input.plain.data(), dest.size()); });
}

void line(const Input& input) {
    Stream ours = timed(input, input.ours);
    check(input, ours.bytes);
    double copy = copy_seconds(input);
    printf("| %-28s | %-6s | %8.1f | %8.1f |", input.name.c_str(), input.unit, input.units / ours.encode_seconds, input.units / ours.decode_seconds);
    if (input.theirs.encode) {
        Stream theirs = timed(input, input.theirs);
        check(input, theirs.bytes);
        printf(" %8.1f | %8.1f | %7.2f | %7.2f |", input.units / theirs.encode_seconds, input.units / theirs.decode_seconds,
               ours.encode_seconds / theirs.encode_seconds, ours.decode_seconds / theirs.decode_seconds);
        printf(" %9zu | %9zu |", ours.bytes.size(), theirs.bytes.size());
    } else {
        printf(" %8s | %8s | %7s | %7s | %9zu | %9s |", "", "", "", "", ours.bytes.size(), "");
    }
    printf(" %8.1f |\n", input.units / copy);
    fflush(stdout);
}

void growth(const std::function<Input(size_t)>& made, size_t size) {
    double encode[3], decode[3];
    Input input = made(size);
    std::string name = input.name;
    for (int k = 0; k < 3; ++k) {
        Input larger = made(size << k);
        Stream ours = timed(larger, larger.ours);
        encode[k] = ours.encode_seconds;
        decode[k] = ours.decode_seconds;
    }
    printf("| %-28s | %6.2f | %6.2f | %6.2f | %6.2f |\n", name.c_str(), encode[1] / encode[0], encode[2] / encode[1], decode[1] / decode[0], decode[2] / decode[1]);
    fflush(stdout);
}

size_t number(const char* word) { return size_t(strtoull(word, nullptr, 10)); }

}  // namespace

int main(int argc, char** argv) {
    size_t bytes = 64 << 20, triangles = 1000000, indices = 1000000;
    for (int k = 1; k + 1 < argc; k += 2) {
        std::string word = argv[k];
        if (word == "--elements") bytes = number(argv[k + 1]);
        else if (word == "--triangles") triangles = number(argv[k + 1]);
        else if (word == "--indices") indices = number(argv[k + 1]);
        else if (word == "--runs") runs = int(number(argv[k + 1]));
        else fail("no such word: " + word);
    }
#ifdef WITH_MESHOPTIMIZER
    meshopt_encodeVertexVersion(0);
    meshopt_encodeIndexVersion(1);
#endif
    printf("| input                        | unit   | encode   | decode   | their e. | their d. | time e. | time d. | size      | their s.  | memcpy   |\n");
    printf("|------------------------------|--------|----------|----------|----------|----------|---------|---------|-----------|-----------|----------|\n");
    for (size_t stride : {4, 12, 16, 32}) {
        if (bytes == 0) break;
        std::string of = " elements of " + std::to_string(stride);
        line(attribute_input("smooth" + of, smooth_elements(bytes, stride), stride));
        line(attribute_input("random" + of, random_elements(bytes, stride), stride));
    }
    if (triangles != 0) {
        line(triangle_input("triangles of a grid", grid(triangles)));
        line(triangle_input("the grid shuffled", shuffled(grid(triangles))));
        line(triangle_input("triangles of a soup", soup(triangles)));
    }
    if (indices != 0) line(sequence_input("sequence of indices", walk(indices)));

    printf("\n| input, doubled twice         | encode | again  | decode | again  |\n|------------------------------|--------|--------|--------|--------|\n");
    if (bytes != 0) growth([](size_t size) { return attribute_input("smooth elements of 16", smooth_elements(size, 16), 16); }, bytes / 4);
    if (triangles != 0) {
        growth([](size_t size) { return triangle_input("triangles of a grid", grid(size)); }, triangles);
        growth([](size_t size) { return triangle_input("triangles of a soup", soup(size)); }, triangles);
    }
    if (indices != 0) growth([](size_t size) { return sequence_input("sequence of indices", walk(size)); }, indices);
}
