/* Inputs in files of their own, and in packs. */
#include "packs.h"

#include <stdlib.h>

static void end(const char *name, const char *why)
{
    fprintf(stderr, "replay: %s: %s\n", name, why);
    exit(2);
}

FILE *opened(const char *name, const char *mode)
{
    FILE *file = fopen(name, mode);
    if (file == NULL)
        end(name, "cannot be opened");
    return file;
}

size_t read_input(const char *name, uint8_t bytes[MOST_BYTES])
{
    FILE *file = opened(name, "rb");
    size_t length = fread(bytes, 1, MOST_BYTES, file);
    if (fgetc(file) != EOF)
        end(name, "too long for an input");
    fclose(file);
    return length;
}

long next_input(FILE *pack, const char *name, uint8_t bytes[MOST_BYTES])
{
    uint8_t number[4];
    size_t there = fread(number, 1, sizeof number, pack);
    if (there == 0)
        return -1;
    input from = {number, there};
    uint32_t length = take_word(&from);
    if (there < sizeof number || length > MOST_BYTES || fread(bytes, 1, length, pack) < length)
        end(name, "not a pack of inputs");
    return (long)length;
}

void add_input(FILE *pack, const uint8_t *bytes, size_t length)
{
    uint8_t number[4] = {(uint8_t)length, (uint8_t)(length >> 8), (uint8_t)(length >> 16), (uint8_t)(length >> 24)};
    fwrite(number, 1, sizeof number, pack);
    fwrite(bytes, 1, length, pack);
}
