#include "json_in.h"

#include "mark.h"
#include "tell.h"

#include <stdarg.h>
#include <stdint.h>
#include <string.h>

enum { SUBSTITUTE = 0x1a, KEY_ROOM = 64 };

#define FAR 1000000000000000L /* steps; no figure has as many */

static void step(json_in *in)
{
    if (in->here == '\n') {
        in->at.line++;
        in->at.column = 0;
    }
    in->here = getc(in->from);
    in->at.column++;
}

void json_in_begin(json_in *in, FILE *from, const char *name)
{
    memset(in, 0, sizeof *in);
    in->from = from;
    in->name = name;
    in->at.line = 1;
    step(in);
}

static int tell_wrong(json_in *in, json_place at, const char *message)
{
    if (in->status == FINE && ferror(in->from))
        in->status = failed(in->name, "read");
    else if (in->status == FINE)
        in->status = trouble(in->name, "line %lu, column %lu: %s%s%s", at.line, at.column, in->key ? in->key : "",
                             in->key ? ": " : "", message);
    return 0;
}

int json_in_wrong_at(json_in *in, json_place at, const char *format, ...)
{
    char message[300];
    va_list values;
    va_start(values, format);
    vsnprintf(message, sizeof message, format, values);
    va_end(values);
    return tell_wrong(in, at, message);
}

/* The byte that is due is not the one that is there. */
static int not_json(json_in *in, const char *due)
{
    char message[120], there[8];
    uint8_t byte = (uint8_t)in->here;
    there[name_bytes(&byte, 1, there, sizeof there)] = 0;
    if (in->here == EOF)
        snprintf(message, sizeof message, "the text ends here, and %s is due", due);
    else
        snprintf(message, sizeof message, "%s stands here, and %s is due", there, due);
    return tell_wrong(in, in->at, message);
}

static void spaces(json_in *in)
{
    while (in->here == ' ' || in->here == '\t' || in->here == '\n' || in->here == '\r')
        step(in);
}

/* The place of a value or key, for what may be told of it. */
static void at_value(json_in *in)
{
    spaces(in);
    in->value = in->at;
}

int json_in_more(json_in *in)
{
    if (in->status != FINE)
        return 0;
    at_value(in);
    if (in->here != EOF)
        return 1;
    return ferror(in->from) ? tell_wrong(in, in->at, "") : 0;
}

int json_in_end(json_in *in)
{
    if (in->status != FINE)
        return 0;
    spaces(in);
    return in->here == EOF || in->here == '{' ? 1 : not_json(in, "another object, or the text's end,");
}

static int enter(json_in *in, int opener, const char *due)
{
    if (in->status != FINE)
        return 0;
    at_value(in);
    if (in->here != opener)
        return not_json(in, due);
    if (++in->depth > JSON_DEEPEST)
        return json_in_wrong(in, "nested deeper than %d", JSON_DEEPEST);
    in->key = NULL;
    step(in);
    spaces(in);
    return 1;
}

int json_in_object(json_in *in)
{
    return enter(in, '{', "an object, {..},");
}

int json_in_list(json_in *in)
{
    return enter(in, '[', "a list, [..],");
}

/* What parts the entries of an object or a list. Gives whether another is due; else the closer was read. */
static int another(json_in *in, int first, int closer, const char *due)
{
    if (in->status != FINE)
        return 0;
    in->key = NULL;
    spaces(in);
    if (in->here == closer) {
        step(in);
        in->depth--;
        return 0;
    }
    if (first)
        return 1;
    if (in->here != ',')
        return not_json(in, due);
    step(in);
    return 1;
}

int json_in_item(json_in *in, unsigned long *items)
{
    if (!another(in, *items == 0, ']', "a comma or ]"))
        return 0;
    ++*items;
    return 1;
}

/* Four hex digits, behind \u. */
static int hex(json_in *in, unsigned long *letter)
{
    static const char digits[] = "0123456789abcdef";
    *letter = 0;
    for (int i = 0; i < 4; i++) {
        int low = in->here >= 'A' && in->here <= 'F' ? in->here - 'A' + 'a' : in->here;
        const char *digit = low > 0 ? strchr(digits, low) : NULL;
        if (digit == NULL)
            return not_json(in, "a hex digit");
        *letter = *letter << 4 | (unsigned long)(digit - digits);
        step(in);
    }
    return 1;
}

static int escaped(json_in *in, char *to)
{
    static const char letters[] = "\"\\/bfnrt", bytes[] = "\"\\/\b\f\n\r\t";
    unsigned long letter;
    step(in);
    if (in->here == 'u') {
        step(in);
        if (!hex(in, &letter))
            return 0;
        *to = (char)(letter <= 0xff ? (int)letter : SUBSTITUTE);
        return 1;
    }
    const char *found = in->here > 0 ? strchr(letters, in->here) : NULL;
    if (found == NULL)
        return not_json(in, "one of \"\\/bfnrtu behind a backslash");
    *to = bytes[found - letters];
    step(in);
    return 1;
}

/* A letter of more than one byte, which must be UTF-8. Gives its bytes, or 0. */
static size_t wide(json_in *in, char to[4])
{
    uint8_t bytes[4];
    size_t length = 0;
    do {
        bytes[length++] = (uint8_t)in->here;
        step(in);
    } while (length < 4 && in->here >= 0x80 && in->here < 0xc0);
    if (letter_length(bytes, length) != length) {
        tell_wrong(in, in->at, "the bytes before this are no letter in UTF-8");
        return 0;
    }
    memcpy(to, bytes, length);
    return length;
}

/* The next letter of a string. Gives its bytes; 0 at the closing quote, or where something is wrong. */
static size_t letter(json_in *in, char to[4])
{
    if (in->here == '"')
        return 0;
    if (in->here == '\\')
        return escaped(in, to) ? 1 : 0;
    if (in->here >= 0x80)
        return wide(in, to);
    if (in->here < 0x20) {
        not_json(in, in->here == EOF ? "a closing quote" : "an escape in its place");
        return 0;
    }
    to[0] = (char)in->here;
    step(in);
    return 1;
}

int json_in_string(json_in *in, char *to, size_t room, size_t *length)
{
    char bytes[4];
    size_t got;
    *length = 0;
    if (in->status != FINE)
        return 0;
    at_value(in);
    if (in->here != '"')
        return not_json(in, "a string");
    step(in);
    while ((got = letter(in, bytes)) > 0)
        for (size_t i = 0; i < got; i++, ++*length)
            if (*length < room)
                to[*length] = bytes[i];
    if (in->status != FINE)
        return 0;
    step(in);
    return 1;
}

/* The number of a key, or -1. */
static int find_key(const char *const *keys, const char *key, size_t length)
{
    for (int i = 0; keys[i] != NULL; i++)
        if (strlen(keys[i]) == length && memcmp(keys[i], key, length) == 0)
            return i;
    return -1;
}

/* Tells of a key that is not known, with those that are. */
static int no_such_key(json_in *in, const char *const *keys, const char *key, size_t length)
{
    char name[4 * KEY_ROOM + 1], all[1200] = "";
    size_t at = 0;
    name[name_bytes((const uint8_t *)key, length < KEY_ROOM ? length : KEY_ROOM, name, sizeof name)] = 0;
    for (int i = 0; keys[i] != NULL && at < sizeof all; i++)
        at += (size_t)snprintf(all + at, sizeof all - at, "%s%s", i ? ", " : "", keys[i]);
    char message[1600];
    snprintf(message, sizeof message, "no such key here: %s; there are %s", name, all);
    tell_wrong(in, in->value, message);
    return -1;
}

int json_in_key(json_in *in, const char *const *keys, unsigned long long *seen)
{
    char key[KEY_ROOM];
    size_t length;
    if (!another(in, *seen == 0, '}', "a comma or }") || !json_in_string(in, key, sizeof key, &length))
        return -1;
    int found = length <= sizeof key ? find_key(keys, key, length) : -1;
    if (found < 0)
        return no_such_key(in, keys, key, length);
    if (*seen >> found & 1) {
        json_in_wrong(in, "the key %s is there a second time", keys[found]);
        return -1;
    }
    *seen |= 1ULL << found;
    spaces(in);
    if (in->here != ':') {
        not_json(in, "a colon");
        return -1;
    }
    step(in);
    in->key = keys[found];
    return found;
}

/* One of the words true, false, null. */
static int word(json_in *in, const char *name)
{
    for (const char *at = name; *at; at++) {
        if (in->here != *at)
            return not_json(in, name);
        step(in);
    }
    return 1;
}

int json_in_bool(json_in *in, int *yes)
{
    if (in->status != FINE)
        return 0;
    at_value(in);
    *yes = in->here == 't';
    if (in->here != 't' && in->here != 'f')
        return not_json(in, "true or false");
    return word(in, *yes ? "true" : "false");
}

int json_in_null(json_in *in)
{
    if (in->status != FINE)
        return 0;
    at_value(in);
    return in->here == 'n' && word(in, "null");
}

/* A number as it is written: its digits, cut off where they are more than any figure has, times a power of ten. */
typedef struct written {
    int below; /* zero */
    int more;  /* a digit that was cut off is not 0 */
    long digits, power;
} written;

static int is_digit(int byte)
{
    return byte >= '0' && byte <= '9';
}

/* Steps over a byte of a number, and keeps it. */
static void take(json_in *in)
{
    size_t length = strlen(in->number);
    if (length + 1 < sizeof in->number) {
        in->number[length] = (char)in->here;
        in->number[length + 1] = 0;
    }
    step(in);
}

/* Digits, at least one; `power` is what each of them takes off the number's power of ten. */
static int digits(json_in *in, written *w, long power)
{
    if (!is_digit(in->here))
        return not_json(in, "a digit");
    for (; is_digit(in->here); take(in)) {
        int fits = w->digits < FAR;
        if (fits)
            w->digits = 10 * w->digits + (in->here - '0');
        else
            w->more |= in->here != '0';
        w->power += (fits ? 0 : 1) - power;
    }
    return 1;
}

static int exponent(json_in *in, written *w)
{
    written e = {0, 0, 0, 0};
    take(in);
    e.below = in->here == '-';
    if (in->here == '-' || in->here == '+')
        take(in);
    if (!digits(in, &e, 0))
        return 0;
    long size = e.digits > 1000 ? 1000 : e.digits;
    w->power += e.below ? -size : size;
    return 1;
}

static int read_number(json_in *in, written *w)
{
    written none = {in->here == '-', 0, 0, 0};
    *w = none;
    in->number[0] = 0;
    if (w->below)
        take(in);
    if (in->here != '0') {
        if (!digits(in, w, 0))
            return 0;
    } else {
        take(in);
        if (is_digit(in->here))
            return not_json(in, "no digit behind a 0 that a number begins with");
    }
    if (in->here == '.') {
        take(in);
        if (!digits(in, w, 1))
            return 0;
    }
    return in->here == 'e' || in->here == 'E' ? exponent(in, w) : 1;
}

static int between_steps(json_in *in, int places, long step_size)
{
    long per = 1;
    for (int i = 0; i < places; i++)
        per *= 10;
    if (step_size > 1)
        return json_in_wrong(in, "%s falls between two steps of %ld", in->number, step_size);
    if (places > 0)
        return json_in_wrong(in, "%s falls between two steps of 1/%ld", in->number, per);
    return json_in_wrong(in, "%s is not a whole number", in->number);
}

int json_in_number(json_in *in, int places, long step_size, long *number)
{
    written w;
    if (in->status != FINE)
        return 0;
    at_value(in);
    if (in->here != '-' && !is_digit(in->here))
        return not_json(in, "a number");
    if (!read_number(in, &w))
        return 0;
    for (w.power += places; w.power > 0 && w.digits != 0 && w.digits < FAR; w.power--)
        w.digits *= 10;
    for (; w.power < 0 && w.digits != 0 && w.digits % 10 == 0; w.power++)
        w.digits /= 10;
    if ((w.power < 0 && w.digits != 0) || (w.power <= 0 && w.more) || w.digits % step_size != 0)
        return between_steps(in, places, step_size);
    long size = w.digits / step_size > 2000000000L ? 2000000000L : w.digits / step_size;
    *number = w.below ? -size : size;
    return 1;
}

static int skip_object(json_in *in)
{
    char key[1];
    size_t length;
    int fine = json_in_object(in);
    for (int first = 1; fine && another(in, first, '}', "a comma or }"); first = 0) {
        fine = json_in_string(in, key, sizeof key, &length);
        spaces(in);
        if (fine && in->here != ':')
            fine = not_json(in, "a colon");
        if (fine)
            step(in);
        fine = fine && json_in_skip(in);
    }
    return in->status == FINE;
}

static int skip_list(json_in *in)
{
    unsigned long items = 0;
    if (json_in_list(in))
        while (json_in_item(in, &items) && json_in_skip(in))
            ;
    return in->status == FINE;
}

int json_in_skip(json_in *in)
{
    written w;
    char byte[1];
    size_t length;
    int yes;
    if (in->status != FINE)
        return 0;
    at_value(in);
    switch (in->here) {
    case '{': return skip_object(in);
    case '[': return skip_list(in);
    case '"': return json_in_string(in, byte, sizeof byte, &length);
    case 't':
    case 'f': return json_in_bool(in, &yes);
    case 'n': return json_in_null(in);
    }
    if (in->here != '-' && !is_digit(in->here))
        return not_json(in, "a value");
    return read_number(in, &w);
}
