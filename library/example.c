#include <glbpack.h>
#include <stdio.h>

int main(void) {
    static unsigned char in[1 << 26];
    unsigned char *out;
    size_t size;
    char line[GLBPACK_LINE];
    int status = glbpack_unpack(in, fread(in, 1, sizeof in, stdin), &out, &size, line);
    fputs(line, stderr);
    if (status == 0) fwrite(out, 1, size, stdout);
    glbpack_free(out);
    return status;
}
