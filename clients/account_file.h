/* An account file read whole into memory, as the clients that take one do it. */
#ifndef ACCOUNT_FILE_H
#define ACCOUNT_FILE_H

#include "serpentgleam.h"

#include <errno.h>
#include <stdint.h>
#include <stdio.h>
#include <string.h>

/* One byte more than the longest file, so that a longer one is refused and not cut short. */
#define ACCOUNT_SPACE (SERPENTGLEAM_MOST_BYTES + 1)

/* Gives 1 and the file's length, or says on standard error why it cannot be read and gives 0. */
static int read_account_file(const char *client, const char *path, uint8_t file[ACCOUNT_SPACE], size_t *length)
{
    FILE *in = fopen(path, "rb");
    int fine;

    if (in == NULL) {
        fprintf(stderr, "%s: %s: %s\n", client, path, strerror(errno));
        return 0;
    }
    *length = fread(file, 1, ACCOUNT_SPACE, in);
    fine = !ferror(in);
    if (!fine)
        fprintf(stderr, "%s: %s cannot be read\n", client, path);
    fclose(in);
    return fine;
}

#endif
