/* Calls a function of a shared library on a file, some number of times over: driver LIBRARY FUNCTION FILE TURNS.
   A small program of its own, so that callgrind counts little else. */
#include <dlfcn.h>
#include <stdint.h>
#include <stdio.h>
#include <stdlib.h>

static unsigned char bytes[1 << 16];

int main(int count, char **words) {
    if (count != 5) return 1;
    FILE *file = fopen(words[3], "rb");
    void *library = dlopen(words[1], RTLD_NOW);
    if (!file || !library) return 1;
    size_t length = fread(bytes, 1, sizeof bytes, file);
    uint32_t (*call)(const unsigned char *, size_t, uint32_t);
    *(void **)&call = dlsym(library, words[2]);
    if (!call) return 1;
    printf("%u\n", (unsigned)call(bytes, length, (uint32_t)atoi(words[4])));
    return 0;
}
