/* The files of a folder, for the test programs of this folder. */
#include "furzepenny.h"

#include <stdio.h>

/* The bytes of a file, FP_FILE at most; of one that cannot be opened, none. */
static size_t load(const char *folder, const char *name, uint8_t *text) {
    char path[4096];
    snprintf(path, sizeof path, "%s/%s", folder, name);
    FILE *f = fopen(path, "rb");
    size_t len = f ? fread(text, 1, FP_FILE, f) : 0;
    if (f)
        fclose(f);
    return len;
}
