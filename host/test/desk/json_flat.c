/*
 * json_flat: reads one JSON document on standard input and writes a line for each value: its path, =, the value. Keys
 * and items are parted by dots, items counted from 0; a string is written as it stands between its quotes.
 *
 *   {"results":[{"code":4}],"status":1}     results.0.code=4
 *                                           status=1
 *
 * It takes what RFC 8259 says (exponents apart) and nothing else: status 1, and the offset, for any other text. It is
 * built for the machine at hand, and shares no code with the desk program.
 */
#include <stdio.h>
#include <stdlib.h>
#include <string.h>

enum { DEEPEST = 64, PATH_ROOM = 4096 };

static char *text;
static size_t length, at;
static char path[PATH_ROOM];
static int depth;

static void wrong(const char *what)
{
    fprintf(stderr, "json_flat: not JSON at byte %lu: %s\n", (unsigned long)at, what);
    exit(1);
}

static int here(void)
{
    return at < length ? (unsigned char)text[at] : -1;
}

static void spaces(void)
{
    while (here() == ' ' || here() == '\t' || here() == '\n' || here() == '\r')
        at++;
}

static void expect(char byte)
{
    if (here() != byte)
        wrong("another byte is due");
    at++;
}

static int is_digit(int byte)
{
    return byte >= '0' && byte <= '9';
}

static void digits(void)
{
    if (!is_digit(here()))
        wrong("a digit is due");
    while (is_digit(here()))
        at++;
}

static void escape(void)
{
    at++;
    if (here() < 0 || strchr("\"\\/bfnrtu", here()) == NULL)
        wrong("no such escape");
    if (text[at++] != 'u')
        return;
    for (int i = 0; i < 4; i++, at++)
        if (here() < 0 || strchr("0123456789abcdefABCDEF", here()) == NULL)
            wrong("a hex digit is due");
}

/* A letter of UTF-8 that has more than one byte: its bytes are those that RFC 3629 lists, and no others. */
static void wide_letter(void)
{
    static const unsigned char rows[][4] = {
        /* first byte from, to; second byte from, to; the rest are 80 to bf */
        {0xc2, 0xdf, 0x80, 0xbf}, {0xe0, 0xe0, 0xa0, 0xbf}, {0xe1, 0xec, 0x80, 0xbf}, {0xed, 0xed, 0x80, 0x9f},
        {0xee, 0xef, 0x80, 0xbf}, {0xf0, 0xf0, 0x90, 0xbf}, {0xf1, 0xf3, 0x80, 0xbf}, {0xf4, 0xf4, 0x80, 0x8f},
    };
    int first = here(), row = 0, more = first >= 0xf0 ? 3 : first >= 0xe0 ? 2 : 1;
    while (row < 8 && (first < rows[row][0] || first > rows[row][1]))
        row++;
    if (row == 8)
        wrong("no letter begins with this byte");
    at++;
    if (here() < rows[row][2] || here() > rows[row][3])
        wrong("no letter goes on with this byte");
    for (; more > 0; more--, at++)
        if (here() < 0x80 || here() > 0xbf)
            wrong("a letter is cut");
}

/* Gives where the string's bytes begin; `at` is then behind its closing quote. */
static size_t string(void)
{
    size_t from = at + 1;
    expect('"');
    while (here() != '"') {
        if (here() < 0x20 || here() == 0x7f)
            wrong("a byte that must be escaped");
        if (here() == '\\')
            escape();
        else if (here() > 0x7f)
            wide_letter();
        else
            at++;
    }
    at++;
    return from;
}

static void number(void)
{
    if (here() == '-')
        at++;
    if (here() == '0')
        at++;
    else
        digits();
    if (here() == '.') {
        at++;
        digits();
    }
}

static void word(const char *name)
{
    if (strncmp(text + at, name, strlen(name)) != 0)
        wrong("no such word");
    at += strlen(name);
}

static void told(size_t from, size_t to)
{
    printf("%s=%.*s\n", path[0] == '.' ? path + 1 : path, (int)(to - from), text + from);
}

/* Adds a part to the path; gives where it was added. */
static size_t enter(const char *part, size_t bytes)
{
    size_t was = strlen(path);
    if (was + bytes + 2 > PATH_ROOM || depth >= DEEPEST)
        wrong("too deep");
    path[was] = '.';
    memcpy(path + was + 1, part, bytes);
    path[was + 1 + bytes] = 0;
    return was;
}

static void value(void);

static void object(void)
{
    at++;
    spaces();
    for (int first = 1; here() != '}'; first = 0) {
        if (!first)
            expect(',');
        spaces();
        size_t from = string(), was = enter(text + from, at - 1 - from);
        spaces();
        expect(':');
        value();
        path[was] = 0;
    }
    at++;
}

static void list(void)
{
    char item[24];
    at++;
    spaces();
    for (int i = 0; here() != ']'; i++) {
        if (i > 0)
            expect(',');
        size_t was = enter(item, (size_t)sprintf(item, "%d", i));
        value();
        path[was] = 0;
    }
    at++;
}

static void value(void)
{
    spaces();
    size_t from = at;
    depth++;
    if (here() == '{')
        object();
    else if (here() == '[')
        list();
    else if (here() == '"') {
        from = string();
        told(from, at - 1);
    } else {
        if (here() == 't')
            word("true");
        else if (here() == 'f')
            word("false");
        else if (here() == 'n')
            word("null");
        else
            number();
        told(from, at);
    }
    depth--;
    spaces();
}

int main(void)
{
    size_t room = 1 << 24;
    text = calloc(room, 1);
    if (text == NULL)
        return 2;
    length = fread(text, 1, room - 1, stdin);
    value();
    if (at != length)
        wrong("bytes after the document");
    return 0;
}
