#include "files.h"

#include <stdio.h>
#include <stdlib.h>

/* The bytes that are taken for a file at first. */
enum { FIRST_ROOM = 65536 };

int take(struct bytes *bytes, size_t length)
{
    bytes->at = malloc(length > 0 ? length : 1);
    bytes->length = length;
    return bytes->at != NULL;
}

/*
 * Reads on to the end of a file, which may grow meanwhile or be a pipe: its
 * length is not asked for. Gives 0 if reading fails or memory runs out.
 */
static int read_on(FILE *file, struct bytes *content)
{
    size_t room = 0;
    size_t read = 0;
    do {
        content->length += read;
        if (content->length == room) {
            room = room > 0 ? 2 * room : FIRST_ROOM;
            uint8_t *larger = realloc(content->at, room);
            if (larger == NULL)
                return 0;
            content->at = larger;
        }
        read = fread(content->at + content->length, 1, room - content->length, file);
    } while (read > 0);
    return !ferror(file);
}

int read_file(const char *path, struct bytes *content)
{
    FILE *file = fopen(path, "rb");
    if (file == NULL)
        return 0;
    int whole = read_on(file, content);
    fclose(file);
    return whole;
}

/* The last bytes are written by the closing, which can fail as well. */
int write_file(const char *path, struct bytes content)
{
    FILE *file = fopen(path, "wb");
    if (file == NULL)
        return 0;
    size_t written = fwrite(content.at, 1, content.length, file);
    int closed = fclose(file) == 0;
    return closed && written == content.length;
}

int all_printed(void)
{
    return fflush(stdout) == 0 && !ferror(stdout);
}
