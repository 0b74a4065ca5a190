#include "mark.h"

#include <string.h>

enum { BEFORE = 56, BEHIND = 56 }; /* the most columns shown on each side of the marked byte */

/* The columns that a byte takes, and the byte as it is shown in them. */
static size_t columns_of(uint8_t byte)
{
    return byte == '\\' ? 2 : byte < 0x20 || byte > 0x7e ? 4 : 1;
}

static void word_byte(uint8_t byte, char to[5])
{
    static const char *const forms[] = {"", "%c", "\\%c", "", "\\x%02x"};
    snprintf(to, 5, forms[columns_of(byte)], byte);
}

size_t show_bytes(FILE *to, const uint8_t *bytes, size_t length)
{
    size_t columns = 0;
    for (size_t i = 0; i < length; i++) {
        char shown[5];
        word_byte(bytes[i], shown);
        fputs(shown, to);
        columns += strlen(shown);
    }
    return columns;
}

size_t name_bytes(const uint8_t *bytes, size_t length, char *to, size_t room)
{
    size_t at = 0;
    for (size_t i = 0; i < length && at + 5 <= room; i++) {
        word_byte(bytes[i], to + at);
        at += strlen(to + at);
    }
    return at;
}

/* How many bytes the first one says that its letter has, and the least letter that needs as many. */
static size_t letter_bytes(uint8_t first, unsigned long *least)
{
    static const unsigned long leasts[] = {0, 0, 0xa0, 0x800, 0x10000};
    size_t bytes = first >= 0xf8 ? 0 : first >= 0xf0 ? 4 : first >= 0xe0 ? 3 : first >= 0xc0 ? 2 : 0;
    *least = leasts[bytes];
    return bytes;
}

size_t letter_length(const uint8_t *bytes, size_t length)
{
    unsigned long least, letter;
    if (length > 0 && bytes[0] < 0x80)
        return bytes[0] >= 0x20 && bytes[0] != 0x7f;
    size_t wanted = length > 0 ? letter_bytes(bytes[0], &least) : 0;
    if (wanted == 0 || wanted > length)
        return 0;
    letter = bytes[0] & (0x7fu >> wanted);
    for (size_t i = 1; i < wanted; i++) {
        if ((bytes[i] & 0xc0) != 0x80)
            return 0;
        letter = letter << 6 | (bytes[i] & 0x3f);
    }
    return letter < least || letter > 0x10ffff || (letter >= 0xd800 && letter <= 0xdfff) ? 0 : wanted;
}

const char *name_safely(const char *name, char *to, size_t room)
{
    const uint8_t *bytes = (const uint8_t *)name;
    size_t length = strlen(name), at = 0;
    for (size_t i = 0; i < length && at + 5 <= room;) {
        size_t letter = letter_length(bytes + i, length - i);
        if (letter > 1)
            memcpy(to + at, bytes + i, letter);
        at += letter > 1 ? letter : name_bytes(bytes + i, 1, to + at, room - at);
        i += letter > 1 ? letter : 1;
    }
    to[at] = 0;
    return to;
}

/* Where the shown part begins: at the line's first byte, where that is near. */
static size_t first_shown(const uint8_t *text, size_t place)
{
    size_t from = place, columns = 0;
    while (from > 0 && columns < BEFORE && text[from - 1] != '\n')
        columns += columns_of(text[--from]);
    return from;
}

/* Where it ends: behind the line's LF, where that is near. */
static size_t last_shown(const uint8_t *text, size_t length, size_t place)
{
    size_t to = place, columns = 0;
    while (to < length && columns < BEHIND && (to == place || text[to - 1] != '\n'))
        columns += columns_of(text[to++]);
    return to;
}

void mark_byte(FILE *to, const uint8_t *text, size_t length, size_t place)
{
    if (place > length)
        return;
    size_t from = first_shown(text, place), end = last_shown(text, length, place);
    int cut = from > 0 && text[from - 1] != '\n';
    fputs(cut ? "  .." : "  ", to);
    size_t columns = show_bytes(to, text + from, place - from);
    show_bytes(to, text + place, end - place);
    fprintf(to, "%s\n%*s^\n", end < length && text[end - 1] != '\n' ? ".." : "", (int)(columns + (cut ? 4 : 2)), "");
}
