/* Calls README's function on each file that is named. */
#include <stdint.h>
#include <stdio.h>

int passes(const uint8_t *file, size_t len);

static uint8_t bytes[1 << 22];

int main(int argc, char **argv)
{
    int i;
    for (i = 1; i < argc; i++) {
        FILE *file = fopen(argv[i], "rb");
        size_t len = file ? fread(bytes, 1, sizeof bytes, file) : 0;
        printf("%d\n", passes(bytes, len));
        if (file)
            fclose(file);
    }
    return 0;
}
