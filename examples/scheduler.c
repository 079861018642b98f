/* A sample scheduler: checks each file named on the command line for parties of the given kind letters.
 * usage: scheduler LETTERS FILE... ; prints a line for each file and ends with status 1 if one is refused. */
#include <stdio.h>
#include <stdlib.h>
#include <string.h>

#include "../include/pigeoncouch.h"

/* The whole file in memory; NULL where it cannot be read. */
static uint8_t *read_file(const char *path, size_t *len) {
    FILE *in = fopen(path, "rb");
    uint8_t *bytes = NULL;
    size_t room = 0;
    *len = 0;
    if (in == NULL) {
        return NULL;
    }
    for (;;) {
        if (*len == room) {
            room = room == 0 ? 4096 : 2 * room;
            uint8_t *more = realloc(bytes, room);
            if (more == NULL) {
                break;
            }
            bytes = more;
        }
        size_t got = fread(bytes + *len, 1, room - *len, in);
        *len += got;
        if (got == 0) {
            int failed = ferror(in);
            fclose(in);
            if (failed) {
                free(bytes);
                return NULL;
            }
            return bytes;
        }
    }
    fclose(in);
    free(bytes);
    return NULL;
}

int main(int argc, char **argv) {
    int refused = 0;
    if (argc < 3) {
        fprintf(stderr, "usage: %s LETTERS FILE...\n", argv[0]);
        return 2;
    }
    for (int i = 2; i < argc; i++) {
        size_t len = 0;
        uint8_t *bytes = read_file(argv[i], &len);
        if (bytes == NULL) {
            printf("%s: cannot be read\n", argv[i]);
            refused = 1;
            continue;
        }
        uint32_t number = pigeoncouch_check_day(bytes, len, (const uint8_t *)argv[1], strlen(argv[1]));
        if (number == 0) {
            printf("%s: ok\n", argv[i]);
        } else {
            printf("%s: refused %u\n", argv[i], (unsigned)number);
            refused = 1;
        }
        free(bytes);
    }
    return refused;
}
