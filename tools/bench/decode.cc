// Decodes the stream of a file by libmeshoptimizer, five times: decode MODE COUNT STRIDE FILE, with MODE one of ATTRIBUTES,
// TRIANGLES and INDICES. Prints the best time in seconds.
#include <meshoptimizer.h>

#include <chrono>
#include <cstdio>
#include <cstdlib>
#include <cstring>
#include <vector>

static int decode(const char *mode, std::vector<unsigned char> &into, size_t count, size_t stride, const std::vector<unsigned char> &stream) {
    if (strcmp(mode, "ATTRIBUTES") == 0)
        return meshopt_decodeVertexBuffer(into.data(), count, stride, stream.data(), stream.size());
    if (strcmp(mode, "TRIANGLES") == 0)
        return meshopt_decodeIndexBuffer(into.data(), count, stride, stream.data(), stream.size());
    return meshopt_decodeIndexSequence(into.data(), count, stride, stream.data(), stream.size());
}

int main(int words, char **word) {
    if (words != 5) {
        fprintf(stderr, "decode MODE COUNT STRIDE FILE\n");
        return 2;
    }
    size_t count = strtoull(word[2], nullptr, 10), stride = strtoull(word[3], nullptr, 10);
    FILE *file = fopen(word[4], "rb");
    if (!file)
        return 1;
    std::vector<unsigned char> stream, piece(1 << 20);
    for (size_t taken; (taken = fread(piece.data(), 1, piece.size(), file)) > 0;)
        stream.insert(stream.end(), piece.begin(), piece.begin() + taken);
    fclose(file);
    double best = 1e9;
    for (int turn = 0; turn < 5; turn++) {
        std::vector<unsigned char> into(count * stride);
        auto begun = std::chrono::steady_clock::now();
        if (decode(word[1], into, count, stride, stream) != 0)
            return 1;
        best = std::min(best, std::chrono::duration<double>(std::chrono::steady_clock::now() - begun).count());
    }
    printf("%.4f\n", best);
    return 0;
}
