// Tries the installed library, beside libmeshoptimizer where the system has it (libmeshoptimizer.so is loaded as the program runs):
//
//   try streams COUNT [SEED]       codes COUNT generated buffers, and decodes cut and changed streams
//   try pack|unpack|analyse FILE   writes the output to standard output and the line to standard error, and ends with the answer
//
// Each buffer of a call begins or ends at a page that can't be touched, and what a call reads can't be written while it runs.
#define _GNU_SOURCE
#include <dlfcn.h>
#include <glbpack.h>
#include <meshoptimizer.h>
#include <pthread.h>
#include <stdbool.h>
#include <stdint.h>
#include <stdio.h>
#include <stdlib.h>
#include <string.h>
#include <sys/mman.h>

#define FAIL(...) (fprintf(stderr, __VA_ARGS__), fputc('\n', stderr), exit(1))

// ---- numbers

static _Thread_local uint64_t state = 1;

// xorshift64*
static uint32_t number(void) {
    state ^= state >> 12;
    state ^= state << 25;
    state ^= state >> 27;
    return (uint32_t)((state * 0x2545F4914F6CDD1DULL) >> 32);
}

static uint32_t below(uint32_t limit) { return (uint32_t)(((uint64_t)number() * limit) >> 32); }

// ---- buffers between guard pages

enum { PAGE = 4096, CAPACITY = 16 * PAGE, CANARY = 0xA5 };

struct arena {
    unsigned char *start;
    unsigned char *at;
    size_t size;
};

static struct arena new_arena(void) {
    unsigned char *start = mmap(NULL, CAPACITY + 2 * PAGE, PROT_NONE, MAP_PRIVATE | MAP_ANONYMOUS, -1, 0);
    if (start == MAP_FAILED || mprotect(start + PAGE, CAPACITY, PROT_READ | PROT_WRITE) != 0) FAIL("no pages");
    memset(start + PAGE, CANARY, CAPACITY);
    return (struct arena){start + PAGE, start + PAGE, 0};
}

// Room for so many bytes at the front or at the end of the pages, filled with what no call writes.
static void *room(struct arena *arena, size_t size) {
    if (size > CAPACITY) FAIL("a buffer of %zu bytes", size);
    memset(arena->at, CANARY, arena->size);
    arena->at = below(2) ? arena->start : arena->start + CAPACITY - size;
    arena->size = size;
    return arena->at;
}

// The same with these bytes, which can be read alone.
static const void *sealed(struct arena *arena, const void *bytes, size_t size) {
    if (size > 0) memcpy(room(arena, size), bytes, size);
    else room(arena, 0);
    mprotect(arena->start, CAPACITY, PROT_READ);
    return arena->at;
}

static void unseal(struct arena *arena) { mprotect(arena->start, CAPACITY, PROT_READ | PROT_WRITE); }

// That nothing but the first bytes of the room was written.
static void look_beside(const struct arena *arena, size_t written) {
    for (const unsigned char *it = arena->start; it < arena->start + CAPACITY; ++it)
        if (*it != CANARY && (it < arena->at || it >= arena->at + written)) FAIL("a byte beside the written ones was changed");
}

// ---- the two libraries

typedef int decode_call(void *, size_t, size_t, const unsigned char *, size_t);
typedef size_t encode_vertices(unsigned char *, size_t, const void *, size_t, size_t);
typedef size_t encode_indices(unsigned char *, size_t, const unsigned int *, size_t);
typedef size_t bound_call(size_t, size_t);

struct library {
    decode_call *decode[3];
    encode_vertices *vertices;
    encode_indices *indices[3];
    bound_call *bound[3];
};

enum { VERTICES, TRIANGLES, SEQUENCE };
static const char *const kinds[] = {"vertices", "triangles", "sequence"};

static const struct library ours = {
    {meshopt_decodeVertexBuffer, meshopt_decodeIndexBuffer, meshopt_decodeIndexSequence},
    meshopt_encodeVertexBuffer,
    {NULL, meshopt_encodeIndexBuffer, meshopt_encodeIndexSequence},
    {meshopt_encodeVertexBufferBound, meshopt_encodeIndexBufferBound, meshopt_encodeIndexSequenceBound},
};
static struct library theirs;
static bool has_theirs;

static void find(void *from, const char *name, void *into) {
    void *at = dlsym(from, name);
    if (at == NULL) FAIL("libmeshoptimizer has no %s", name);
    memcpy(into, &at, sizeof at);
}

static void load_theirs(void) {
    void *from = dlopen("libmeshoptimizer.so", RTLD_NOW | RTLD_LOCAL);
    if (from == NULL) return;
    find(from, "meshopt_decodeVertexBuffer", &theirs.decode[VERTICES]);
    find(from, "meshopt_decodeIndexBuffer", &theirs.decode[TRIANGLES]);
    find(from, "meshopt_decodeIndexSequence", &theirs.decode[SEQUENCE]);
    find(from, "meshopt_encodeVertexBuffer", &theirs.vertices);
    find(from, "meshopt_encodeIndexBuffer", &theirs.indices[TRIANGLES]);
    find(from, "meshopt_encodeIndexSequence", &theirs.indices[SEQUENCE]);
    find(from, "meshopt_encodeVertexBufferBound", &theirs.bound[VERTICES]);
    find(from, "meshopt_encodeIndexBufferBound", &theirs.bound[TRIANGLES]);
    find(from, "meshopt_encodeIndexSequenceBound", &theirs.bound[SEQUENCE]);
    void (*version)(int);
    find(from, "meshopt_encodeVertexVersion", &version);
    version(0);
    find(from, "meshopt_encodeIndexVersion", &version);
    version(1);
    has_theirs = true;
}

// ---- what is coded

struct input {
    int kind;
    size_t count, stride; // of elements; of indices as they are decoded
    uint32_t vertices;    // more than each index
    size_t size;          // of the source: elements, or indices of four bytes
    unsigned char source[CAPACITY];
};

static void make_vertices(struct input *it) {
    it->stride = 4 * (1 + below(below(4) ? 8 : 64));
    it->count = below(below(4) ? 64 : 600);
    if (it->count * it->stride > CAPACITY / 2) it->count = CAPACITY / 2 / it->stride;
    it->size = it->count * it->stride;
    uint32_t way = below(3), step = 1 + below(40);
    for (size_t k = 0; k < it->size; ++k) {
        unsigned char before = k >= it->stride ? it->source[k - it->stride] : (unsigned char)number();
        it->source[k] = (unsigned char)(way == 0 ? number() : way == 1 ? before + below(step) - step / 2 : before);
    }
}

static void make_indices(struct input *it) {
    uint32_t *index = (uint32_t *)(void *)it->source;
    it->stride = below(2) ? 2 : 4;
    uint32_t most = it->stride == 2 ? 1 << 16 : it->kind == TRIANGLES ? 1 << 24 : 1 << 30;
    uint32_t limit = 1 + below(below(2) ? 200 : most), next = 0, way = below(3);
    it->count = below(below(4) ? 90 : 1500) * (it->kind == TRIANGLES ? 3 : 1);
    it->size = 4 * it->count;
    it->vertices = 1;
    for (size_t k = 0; k < it->count; ++k) {
        if (way == 0) index[k] = below(limit);
        else if (k >= 3 && below(3) > 0) index[k] = index[k - 1 - below(3)];
        else index[k] = way == 1 ? (next < limit ? next++ : below(limit)) : (uint32_t)(next = (next + below(9)) % limit);
        if (index[k] >= it->vertices) it->vertices = index[k] + 1;
    }
}

static size_t bound_of(const struct library *by, const struct input *it) {
    return by->bound[it->kind](it->count, it->kind == VERTICES ? it->stride : it->vertices);
}

static struct arena from, into, plain, other;

// Encodes into this much room; the answer is the size.
static size_t encode(const struct library *by, const struct input *it, size_t len) {
    const void *source = sealed(&from, it->source, it->size);
    unsigned char *dest = room(&into, len);
    size_t size = it->kind == VERTICES ? by->vertices(dest, len, source, it->count, it->stride) : by->indices[it->kind](dest, len, source, it->count);
    unseal(&from);
    return size;
}

static int decode(const struct library *by, const struct input *it, const unsigned char *stream, size_t size, struct arena *arena) {
    const void *source = sealed(&from, stream, size);
    void *dest = room(arena, it->count * it->stride);
    int answer = by->decode[it->kind](dest, it->count, it->stride, source, size);
    unseal(&from);
    look_beside(arena, it->count * it->stride);
    return answer;
}

static uint32_t index_at(const unsigned char *bytes, size_t stride, size_t k) {
    uint32_t at = 0;
    memcpy(&at, bytes + k * stride, stride);
    return at;
}

// Whether a decoder gave the input back: triangles from any of their corners on.
static bool is_input(const struct input *it, const unsigned char *bytes) {
    if (it->kind == VERTICES) return memcmp(bytes, it->source, it->size) == 0;
    for (size_t k = 0; k < it->count; ++k) {
        bool found = false;
        size_t first = it->kind == TRIANGLES ? k / 3 * 3 : k, turns = it->kind == TRIANGLES ? 3 : 1;
        for (size_t turn = 0; turn < turns && !found; ++turn) {
            found = true;
            for (size_t corner = 0; corner < turns; ++corner)
                found = found && index_at(bytes, it->stride, first + corner) == index_at(it->source, 4, first + (corner + turn) % turns);
        }
        if (!found) return false;
    }
    return true;
}

// Both decoders give a library's stream back, to the same bytes.
static void both_decode(const struct input *it, const unsigned char *stream, size_t size) {
    if (decode(&ours, it, stream, size, &plain) != 0 || !is_input(it, plain.at)) FAIL("a stream of %s isn't given back", kinds[it->kind]);
    if (!has_theirs) return;
    if (decode(&theirs, it, stream, size, &other) != 0) FAIL("libmeshoptimizer refuses a stream of %s", kinds[it->kind]);
    if (memcmp(plain.at, other.at, plain.size) != 0) FAIL("libmeshoptimizer gives other bytes of %s", kinds[it->kind]);
}

// ---- streams that are cut and changed

static struct { unsigned long same, version, table, varint, width, code; } found;

// Whether four bytes go on and the fifth has more than 32 bits have.
static bool may_have_long_varint(const unsigned char *stream, size_t size) {
    for (size_t k = 1; k + 4 < size; ++k)
        if ((stream[k] & stream[k + 1] & stream[k + 2] & stream[k + 3]) >= 0x80 && stream[k + 4] > 15) return true;
    return false;
}

static bool has_wide_index(const struct input *it, const unsigned char *stream, size_t size) {
    struct input wide = {.kind = it->kind, .count = it->count, .stride = 4};
    if (it->stride != 2 || decode(&theirs, &wide, stream, size, &other) != 0) return false;
    for (size_t k = 0; k < it->count; ++k)
        if (index_at(other.at, 4, k) > 65535) return true;
    return false;
}

static bool has_half_of_fifteen(const unsigned char *stream, size_t size) {
    for (size_t k = 0; k < 14 && size >= 16; ++k)
        if (stream[size - 16 + k] % 16 == 15 || stream[size - 16 + k] / 16 == 15) return true;
    return false;
}

// The answers are the same, or a known difference: libmeshoptimizer takes older versions of streams of indices, halves of 15 in the
// table, and drops the bits of a varint past 32 and those of an index past 16; and which fault it names can be another.
static void compare(const struct input *it, const unsigned char *stream, size_t size) {
    int our = decode(&ours, it, stream, size, &plain);
    if (our != 0 && our != -1 && our != -2 && our != -3) FAIL("the answer %d", our);
    if (!has_theirs) return;
    int their = decode(&theirs, it, stream, size, &other);
    if (our == 0 && (their != 0 || memcmp(plain.at, other.at, plain.size) != 0)) FAIL("changed %s: libmeshoptimizer answers %d, or has other bytes", kinds[it->kind], their);
    else if (our == their) ++found.same;
    else if (their != 0) ++found.code;
    else if (it->kind != VERTICES && (stream[0] == 0xE0 || stream[0] == 0xD0)) ++found.version;
    else if (it->kind == TRIANGLES && has_half_of_fifteen(stream, size)) ++found.table;
    else if (it->kind != VERTICES && has_wide_index(it, stream, size)) ++found.width;
    else if (it->kind != VERTICES && may_have_long_varint(stream, size)) ++found.varint;
    else FAIL("changed %s of %zu bytes: %d here, 0 there", kinds[it->kind], size, our);
}

static void change(struct input *it, unsigned char *stream, size_t size) {
    compare(it, stream, below((uint32_t)size));
    for (uint32_t turn = below(3) + 1; turn > 0; --turn) stream[below(4) ? below((uint32_t)size) : size - 1 - below((uint32_t)(size < 16 ? size : 16))] = (unsigned char)(below(2) ? number() : 255);
    if (below(20) == 0) --stream[0];
    compare(it, stream, size);
    it->count += it->kind == TRIANGLES ? 3 : 1;
    if (it->count * it->stride <= CAPACITY) compare(it, stream, size);
    it->count -= it->kind == TRIANGLES ? 3 : 1;
}

// ---- all of it

static void try_input(struct input *it) {
    static unsigned char stream[CAPACITY];
    size_t bound = bound_of(&ours, it), size = encode(&ours, it, bound);
    look_beside(&into, size);
    if (size == 0) FAIL("no stream of %s in its bound", kinds[it->kind]);
    if (has_theirs && bound != bound_of(&theirs, it)) FAIL("another bound of %s: %zu here, %zu there", kinds[it->kind], bound, bound_of(&theirs, it));
    memcpy(stream, into.at, size);
    both_decode(it, stream, size);
    if (encode(&ours, it, size) != size || memcmp(stream, into.at, size) != 0) FAIL("another stream of the same %s", kinds[it->kind]);
    if (encode(&ours, it, size - 1) != 0) FAIL("a stream of %s without room", kinds[it->kind]);
    look_beside(&into, 0);
    if (has_theirs) {
        size = encode(&theirs, it, bound);
        if (size == 0) FAIL("libmeshoptimizer has no stream of %s", kinds[it->kind]);
        memcpy(stream, into.at, size);
        both_decode(it, stream, size);
    }
    change(it, stream, size);
}

static void try_shapes(void) {
    unsigned char bytes[64] = {0xA0};
    unsigned int three[] = {0, 1, 1 << 24}, one = 1u << 30;
    if (meshopt_decodeVertexBuffer(bytes, 1, 6, bytes + 32, 32) != -1 || meshopt_decodeVertexBuffer(bytes, SIZE_MAX / 2, 4, bytes + 32, 32) != -1) FAIL("a stride or a count");
    if (meshopt_decodeIndexBuffer(bytes, 4, 4, bytes + 32, 32) != -1 || meshopt_decodeIndexSequence(bytes, 4, 3, bytes + 32, 32) != -1) FAIL("a count or a size of indices");
    if (meshopt_encodeVertexBuffer(bytes, 32, bytes + 32, 1, 260) != 0 || meshopt_encodeIndexBuffer(bytes, 64, three, 3) != 0 || meshopt_encodeIndexSequence(bytes, 64, &one, 1) != 0) FAIL("a shape that isn't taken");
    if (meshopt_decodeVertexBuffer(NULL, 0, 4, NULL, 0) != -1 || meshopt_decodeIndexBuffer(NULL, 0, 4, NULL, 0) != -1 || meshopt_encodeVertexBuffer(NULL, 0, NULL, 0, 4) != 0) FAIL("a null pointer");
    if (meshopt_encodeIndexBuffer(bytes, 64, NULL, 0) != 17 || meshopt_encodeIndexSequence(bytes, 64, NULL, 0) != 5) FAIL("a stream of no indices");
    if (meshopt_encodeVertexBufferBound(SIZE_MAX, 256) != SIZE_MAX || meshopt_encodeIndexBufferBound(SIZE_MAX, SIZE_MAX) != SIZE_MAX) FAIL("a bound that is no size");
}

static int try_streams(size_t count, uint64_t seed) {
    static struct input it;
    state = seed * 0x9E3779B97F4A7C15ULL + 1;
    load_theirs();
    from = new_arena(), into = new_arena(), plain = new_arena(), other = new_arena();
    try_shapes();
    for (size_t k = 0; k < count; ++k) {
        it.kind = (int)(k % 3);
        if (it.kind == VERTICES) make_vertices(&it);
        else make_indices(&it);
        try_input(&it);
    }
    if (!has_theirs) printf("%zu buffers coded and decoded; libmeshoptimizer isn't here, so that nothing was compared with it\n", count);
    else printf("%zu buffers coded and decoded by either library; of their streams cut and changed: %lu answers the same, %lu other faults named, and taken there alone: %lu of version 0, %lu tables with a half of 15, %lu indices past 16 bits, %lu varints past 32 bits\n",
                count, found.same, found.code, found.version, found.table, found.width, found.varint);
    return 0;
}

// ---- the commands

struct file {
    const char *word;
    unsigned char *bytes;
    size_t size;
    unsigned char *out;
    size_t out_size;
    char line[GLBPACK_LINE];
    int answer;
};

static void *do_command(void *of) {
    struct file *it = of;
    it->answer = (strcmp(it->word, "pack") == 0 ? glbpack_pack : strcmp(it->word, "unpack") == 0 ? glbpack_unpack : glbpack_analyse)(it->bytes, it->size, &it->out, &it->out_size, it->line);
    return NULL;
}

static struct file read_file(const char *word, const char *path) {
    struct file it = {.word = word};
    FILE *file = fopen(path, "rb");
    if (file == NULL) FAIL("no file %s", path);
    fseek(file, 0, SEEK_END);
    it.size = (size_t)ftell(file);
    rewind(file);
    // Between guard pages, without a page where there are no bytes.
    size_t pages = (it.size + PAGE - 1) / PAGE * PAGE;
    unsigned char *start = mmap(NULL, pages + 2 * PAGE, PROT_NONE, MAP_PRIVATE | MAP_ANONYMOUS, -1, 0);
    if (pages > 0) mprotect(start + PAGE, pages, PROT_READ | PROT_WRITE);
    it.bytes = it.size > 0 ? start + PAGE + pages - it.size : NULL;
    if (it.size > 0 && fread(it.bytes, 1, it.size, file) != it.size) FAIL("no bytes of %s", path);
    if (pages > 0) mprotect(start + PAGE, pages, PROT_READ);
    fclose(file);
    return it;
}

// The command in two threads at once, which must end alike.
static int try_command(const char *word, const char *path) {
    struct file it = read_file(word, path), twin = it;
    pthread_t thread;
    if (pthread_create(&thread, NULL, do_command, &twin) != 0) FAIL("no thread");
    do_command(&it);
    pthread_join(thread, NULL);
    if (it.answer != twin.answer || strcmp(it.line, twin.line) != 0 || it.out_size != twin.out_size || (it.out_size > 0 && memcmp(it.out, twin.out, it.out_size) != 0)) FAIL("two threads, two answers");
    if ((it.out == NULL) != (it.answer != 0)) FAIL("an output without the answer 0");
    fputs(it.line, stderr);
    fwrite(it.out != NULL ? it.out : (unsigned char *)it.line, 1, it.out_size, stdout);
    glbpack_free(it.out);
    glbpack_free(twin.out);
    return it.answer;
}

int main(int words, char **word) {
    if (words >= 3 && strcmp(word[1], "streams") == 0) return try_streams(strtoull(word[2], NULL, 10), words > 3 ? strtoull(word[3], NULL, 10) : 1);
    if (words == 3) return try_command(word[1], word[2]);
    FAIL("try streams COUNT [SEED] | try pack|unpack|analyse FILE");
}
