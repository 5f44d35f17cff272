/* The coders of EXT_meshopt_compression under libmeshoptimizer's names, types and answers. Link libglbpack.a in its place.
 *
 * Attributes are streams of version 0, triangles and sequences of indices streams of version 1: what the extension has. Any other
 * version is answered as a broken stream, and there are no filters.
 *
 * A decoder answers 0 where it is done, and then `destination` has its `count` times `size` bytes. It answers -1 where the stream
 * begins with another byte, or where a size or a count is none of the extension's: vertices have 4 to 256 bytes, a multiple of 4,
 * indices 2 or 4, and triangles three indices each. It answers -3 where the stream has a tail of another length, and -2 at any other
 * fault; the destination may be written in part then. An encoder answers how many bytes it put at the front of `buffer`, and 0,
 * with the buffer as it was, where there is no room, no memory, or a size, a count or an index that it doesn't take: triangles have
 * indices below 2^24, sequences below 2^30.
 *
 * What a caller must keep: each pointer has the bytes that its count says (the destination of a decoder `count` times `size`), is
 * null only where that is none, and lies apart from the others; no other thread writes them while the call runs, or reads what the
 * call writes. No call keeps a pointer, and calls share nothing: threads may call at once. As malloc, which they use, they aren't
 * called by a signal handler, nor in the forked child of a process with threads.
 */
#ifndef GLBPACK_MESHOPTIMIZER_H
#define GLBPACK_MESHOPTIMIZER_H

#include <stddef.h>

#ifdef __cplusplus
extern "C" {
#endif

int meshopt_decodeVertexBuffer(void *destination, size_t vertex_count, size_t vertex_size, const unsigned char *buffer, size_t buffer_size);
int meshopt_decodeIndexBuffer(void *destination, size_t index_count, size_t index_size, const unsigned char *buffer, size_t buffer_size);
int meshopt_decodeIndexSequence(void *destination, size_t index_count, size_t index_size, const unsigned char *buffer, size_t buffer_size);

size_t meshopt_encodeVertexBuffer(unsigned char *buffer, size_t buffer_size, const void *vertices, size_t vertex_count, size_t vertex_size);
size_t meshopt_encodeIndexBuffer(unsigned char *buffer, size_t buffer_size, const unsigned int *indices, size_t index_count);
size_t meshopt_encodeIndexSequence(unsigned char *buffer, size_t buffer_size, const unsigned int *indices, size_t index_count);

/* How many bytes of room are enough for an encoder, where `vertex_count` is more than each index. */
size_t meshopt_encodeVertexBufferBound(size_t vertex_count, size_t vertex_size);
size_t meshopt_encodeIndexBufferBound(size_t index_count, size_t vertex_count);
size_t meshopt_encodeIndexSequenceBound(size_t index_count, size_t vertex_count);

#ifdef __cplusplus
}
#endif

#endif
