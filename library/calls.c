// The calls of glbpack.h and meshoptimizer.h over those that are proved in crates/gp_library_c, and the heap that these ask for.
// No checker reads this file: it is trusted, as a C compiler is.
#include <stdbool.h>
#include <stdint.h>
#include <stdlib.h>
#include <string.h>

#include "glbpack.h"
#include "meshoptimizer.h"

// A slice is a pointer, which is never null, and a length.
typedef uint32_t command(const unsigned char *bytes, size_t len, unsigned char *room, size_t room_len, size_t *size,
                         unsigned char *line, size_t line_len, size_t *line_size);
command gp_library_c_pack, gp_library_c_unpack, gp_library_c_analyse;

typedef int32_t decoder(const unsigned char *bytes, size_t len, size_t count, size_t stride, unsigned char *dest, size_t dest_len);
decoder gp_library_c_decode_attributes, gp_library_c_decode_triangles, gp_library_c_decode_sequence;

typedef uint32_t encoder(const uint32_t *indices, size_t count, unsigned char *room, size_t room_len, size_t *size);
encoder gp_library_c_encode_triangles, gp_library_c_encode_sequence;
uint32_t gp_library_c_encode_attributes(const unsigned char *source, size_t len, size_t count, size_t stride, unsigned char *room, size_t room_len, size_t *size);

size_t gp_library_c_attributes_bound(size_t count, size_t stride);
size_t gp_library_c_triangles_bound(size_t count, size_t vertices);
size_t gp_library_c_sequence_bound(size_t count, size_t vertices);

// The heap. C may take a size of 0 for none, so that no size is 0.
struct tried {
    bool ok;
    void *block;
};
struct tried rattle_alloc(size_t size, size_t align);
struct tried rattle_realloc(void *old, size_t kept, size_t size, size_t align);
void rattle_dealloc(void *block);

struct tried rattle_alloc(size_t size, size_t align) {
    (void)align; // at most 16, as malloc's
    void *block = malloc(size + (size == 0));
    return (struct tried){block != NULL, block};
}

struct tried rattle_realloc(void *old, size_t kept, size_t size, size_t align) {
    (void)kept, (void)align;
    void *block = realloc(old, size + (size == 0));
    return (struct tried){block != NULL, block};
}

void rattle_dealloc(void *block) { free(block); }

// Where no bytes are, of which there is no pointer.
static max_align_t nowhere;
static const void *given(const void *bytes) { return bytes != NULL ? bytes : &nowhere; }
static void *room_at(void *bytes) { return bytes != NULL ? bytes : &nowhere; }

static const char want_of_memory[GLBPACK_LINE] = "want of memory\n";

// A first room: few outputs are longer than four times the input. What is never written takes no memory.
static unsigned char *first_room(size_t size, size_t *len) {
    const size_t least = 1 << 16, most = (size_t)1 << 29; // longer inputs are refused
    *len = least + (size <= most ? 4 * size : 0);
    unsigned char *room = malloc(*len);
    while (room == NULL && *len > least) {
        *len = *len / 2 > least ? *len / 2 : least;
        room = malloc(*len);
    }
    return room;
}

static int run(command *asked, const void *bytes, size_t size, unsigned char **out, size_t *out_size, char *line) {
    char own[GLBPACK_LINE];
    if (line == NULL) line = own;
    *out = NULL, *out_size = 0;
    size_t len, made = 0, told = 0;
    unsigned char *room = first_room(size, &len);
    while (room != NULL) {
        memset(line, 0, GLBPACK_LINE);
        uint32_t status = asked(given(bytes), size, room, len, &made, (unsigned char *)line, GLBPACK_LINE - 1, &told);
        if (status != 0) {
            free(room);
            return (int)status;
        }
        if (made <= len) {
            unsigned char *fitted = realloc(room, made + (made == 0));
            *out = fitted != NULL ? fitted : room;
            *out_size = made;
            return 0;
        }
        // Once more, with room for all: what is made of an input is always the same.
        free(room);
        len = made;
        room = malloc(len);
    }
    memcpy(line, want_of_memory, GLBPACK_LINE);
    return 4;
}

int glbpack_pack(const void *bytes, size_t size, unsigned char **out, size_t *out_size, char *line) {
    return run(gp_library_c_pack, bytes, size, out, out_size, line);
}

int glbpack_unpack(const void *bytes, size_t size, unsigned char **out, size_t *out_size, char *line) {
    return run(gp_library_c_unpack, bytes, size, out, out_size, line);
}

int glbpack_analyse(const void *bytes, size_t size, unsigned char **out, size_t *out_size, char *line) {
    return run(gp_library_c_analyse, bytes, size, out, out_size, line);
}

void glbpack_free(void *out) { free(out); }

// A length that is no size is found by the proved call, which compares it with count and size.
int meshopt_decodeVertexBuffer(void *destination, size_t vertex_count, size_t vertex_size, const unsigned char *buffer, size_t buffer_size) {
    return gp_library_c_decode_attributes(given(buffer), buffer_size, vertex_count, vertex_size, room_at(destination), vertex_count * vertex_size);
}

int meshopt_decodeIndexBuffer(void *destination, size_t index_count, size_t index_size, const unsigned char *buffer, size_t buffer_size) {
    return gp_library_c_decode_triangles(given(buffer), buffer_size, index_count, index_size, room_at(destination), index_count * index_size);
}

int meshopt_decodeIndexSequence(void *destination, size_t index_count, size_t index_size, const unsigned char *buffer, size_t buffer_size) {
    return gp_library_c_decode_sequence(given(buffer), buffer_size, index_count, index_size, room_at(destination), index_count * index_size);
}

size_t meshopt_encodeVertexBuffer(unsigned char *buffer, size_t buffer_size, const void *vertices, size_t vertex_count, size_t vertex_size) {
    size_t size = 0;
    uint32_t answer = gp_library_c_encode_attributes(given(vertices), vertex_count * vertex_size, vertex_count, vertex_size, room_at(buffer), buffer_size, &size);
    return answer == 0 ? size : 0;
}

static size_t encode(encoder *coder, unsigned char *buffer, size_t buffer_size, const unsigned int *indices, size_t index_count) {
    size_t size = 0;
    uint32_t answer = coder(given(indices), index_count, room_at(buffer), buffer_size, &size);
    return answer == 0 ? size : 0;
}

size_t meshopt_encodeIndexBuffer(unsigned char *buffer, size_t buffer_size, const unsigned int *indices, size_t index_count) {
    return encode(gp_library_c_encode_triangles, buffer, buffer_size, indices, index_count);
}

size_t meshopt_encodeIndexSequence(unsigned char *buffer, size_t buffer_size, const unsigned int *indices, size_t index_count) {
    return encode(gp_library_c_encode_sequence, buffer, buffer_size, indices, index_count);
}

size_t meshopt_encodeVertexBufferBound(size_t vertex_count, size_t vertex_size) { return gp_library_c_attributes_bound(vertex_count, vertex_size); }
size_t meshopt_encodeIndexBufferBound(size_t index_count, size_t vertex_count) { return gp_library_c_triangles_bound(index_count, vertex_count); }
size_t meshopt_encodeIndexSequenceBound(size_t index_count, size_t vertex_count) { return gp_library_c_sequence_bound(index_count, vertex_count); }
