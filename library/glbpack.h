/* glbpack for C: packs glTF 2.0 assets without loss, unpacks and analyses them. Link libglbpack.a.
 *
 * Each call takes the bytes of a file, as the program of the same name takes its standard input, and answers the program's exit
 * status: 0 where it is done, 1 where the file is refused, 4 where memory was not found.
 *
 * `out` and `out_size` are where the output is put: after 0 a block of `*out_size` bytes, which is the caller's until glbpack_free
 * takes it; after any other answer a null pointer and 0. `line` has room for GLBPACK_LINE characters, or is null: what the program
 * tells on standard error is put there, with its newline and a 0 behind it; of an analysis that is done nothing but the 0.
 *
 * What a caller must keep: `bytes` points to `size` bytes, and may be null where that is 0; no other thread writes them while the
 * call runs; `out`, `out_size` and `line` lie apart from them and from each other. No call keeps a pointer or writes the input,
 * and calls share nothing: threads may call at once. As malloc, which they use, they aren't called by a signal handler, nor in the
 * forked child of a process with threads.
 */
#ifndef GLBPACK_H
#define GLBPACK_H

#include <stddef.h>

#ifdef __cplusplus
extern "C" {
#endif

#define GLBPACK_LINE 128

/* Packs: equal vertices as one, triangles and vertices in an order that compresses, views as streams of EXT_meshopt_compression. */
int glbpack_pack(const void *bytes, size_t size, unsigned char **out, size_t *out_size, char *line);

/* Unpacks: every view plain again. */
int glbpack_unpack(const void *bytes, size_t size, unsigned char **out, size_t *out_size, char *line);

/* Writes a text: of each triangle primitive its vertices, triangles, misses of a cache and lines of memory. */
int glbpack_analyse(const void *bytes, size_t size, unsigned char **out, size_t *out_size, char *line);

/* Frees an output; a null pointer is none. */
void glbpack_free(void *out);

#ifdef __cplusplus
}
#endif

#endif
