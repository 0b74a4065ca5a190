/* The packed calls of eskelvor.h: document 01's figures, every code, every field of up to three bytes with the place of
 * its refusal, canaries round every buffer. */
#include "check.h"

typedef struct read_case {
    const char *field;
    size_t length;
    unsigned code, place, given;
    int32_t number;
    const char *why;
} read_case;

static const read_case reads[] = {
    /* document 01, "Figures to hold against the code" */
    {"INZ", 3, 0, 0, 1, -2245, "printed"},
    {"LAE", 3, 0, 0, 1, 2014, "printed"},
    {"D5", 2, 0, 0, 1, -275, "printed"},
    {" U", 2, 0, 0, 1, 10, "printed"},
    {" UK", 3, 0, 0, 1, 420, "printed"},
    {" YZ9F", 5, 0, 0, 1, 952375, "printed"},
    {"  K", 3, 0, 0, 1, 0, "printed: zero is given"},
    {"KK", 2, 0, 0, 1, 20, "printed"},
    {"JJ", 2, 0, 0, 1, -21, "printed"},
    {"K5", 2, 6, 0, 0, 0, "printed: 5 needs one digit"},
    {"//", 2, 0, 0, 0, 0, "printed: missing, told apart from zero"},
    {"/5", 2, 4, 1, 0, 0, "printed: a solidus among others"},
    /* lengths */
    {"", 0, 1, 0, 0, 0, "no byte"},
    {"     K", 6, 1, 0, 0, 0, "six bytes"},
    {"//////", 6, 1, 0, 0, 0, "six solidi"},
    /* every width: lowest, highest, missing */
    {"0", 1, 0, 0, 1, -20, "lowest of one digit"},
    {".", 1, 0, 0, 1, 19, "highest of one digit"},
    {"00", 2, 0, 0, 1, -800, "lowest of two digits"},
    {"..", 2, 0, 0, 1, 799, "highest of two digits"},
    {"000", 3, 0, 0, 1, -32000, "lowest of three digits"},
    {"...", 3, 0, 0, 1, 31999, "highest of three digits"},
    {"0000", 4, 0, 0, 1, -1280000, "lowest of four digits"},
    {"....", 4, 0, 0, 1, 1279999, "highest of four digits"},
    {"00000", 5, 0, 0, 1, -51200000, "lowest of five digits"},
    {".....", 5, 0, 0, 1, 51199999, "highest of five digits"},
    {"/", 1, 0, 0, 0, 0, "one solidus is missing"},
    {"/////", 5, 0, 0, 0, 0, "five solidi are missing"},
    /* the four further digits */
    {":", 1, 0, 0, 1, 16, "36 less 20"},
    {",", 1, 0, 0, 1, 17, "37 less 20"},
    {"-", 1, 0, 0, 1, 18, "38 less 20"},
    /* bytes not allowed */
    {" ", 1, 4, 0, 0, 0, "a space alone"},
    {"     ", 5, 4, 4, 0, 0, "all spaces: the last one"},
    {"K ", 2, 4, 1, 0, 0, "a space after a digit"},
    {" K K", 4, 4, 2, 0, 0, "a space after a digit"},
    {" /", 2, 4, 1, 0, 0, "a solidus behind a space"},
    {"/ ", 2, 4, 1, 0, 0, "a space behind a solidus"},
    {"K/", 2, 4, 1, 0, 0, "a solidus behind a digit"},
    {"////K", 5, 4, 4, 0, 0, "solidi and a digit"},
    {"  ", 2, 4, 1, 0, 0, "two spaces"},
    {"K  /", 4, 4, 1, 0, 0, "the space is left of the solidus"},
    {"a5", 2, 4, 0, 0, 0, "no field begins with a small letter"},
    {"//a//", 5, 4, 2, 0, 0, "a small letter among solidi"},
    {"  a  ", 5, 4, 2, 0, 0, "a small letter among spaces"},
    {"k", 1, 4, 0, 0, 0, "a small letter"},
    {"\0", 1, 4, 0, 0, 0, "NUL"},
    {"K\x80", 2, 4, 1, 0, 0, "a byte above 0x7F"},
    {"\xff", 1, 4, 0, 0, 0, "the last byte"},
    /* spellings; a byte not allowed comes first */
    {"K0", 2, 6, 0, 0, 0, "0 in two digits"},
    {"J0", 2, 0, 0, 1, -40, "two digits are needed"},
    {"JK", 2, 6, 0, 0, 0, "-20 in two digits"},
    {" K5", 3, 6, 0, 0, 0, "behind a space"},
    {"KK0", 3, 0, 0, 1, 800, "three digits are needed"},
    {"KJ.", 3, 6, 0, 0, 0, "799 in three digits"},
    {"JK0", 3, 6, 0, 0, 0, "-800 in three digits"},
    {"  KJ.", 5, 6, 0, 0, 0, "799 in three digits of five bytes"},
    {"KJ...", 5, 6, 0, 0, 0, "1279999 in five digits"},
    {"KK000", 5, 0, 0, 1, 1280000, "five digits are needed"},
    {"KK/", 3, 4, 2, 0, 0, "4 before 6"},
};

static void must_be(esk_packed got, esk_packed want, const uint8_t *field, size_t length, const char *why)
{
    checks++;
    if (got.code == want.code && got.place == want.place && got.given == want.given && got.number == want.number)
        return;
    fail(why, "esk_packed_read", field, length);
    fprintf(stderr, "  expected: code %u place %u given %u number %ld\n", (unsigned)want.code, (unsigned)want.place,
            (unsigned)want.given, (long)want.number);
    fprintf(stderr, "  got     : code %u place %u given %u number %ld\n", (unsigned)got.code, (unsigned)got.place,
            (unsigned)got.given, (long)got.number);
    exit(1);
}

static void read_all(int null)
{
    for (size_t i = 0; i < sizeof reads / sizeof *reads; i++) {
        const read_case *c = &reads[i];
        lent field;
        esk_packed got = esk_packed_read(lend(&field, c->field, c->length, null), c->length);
        esk_packed want = {c->number, (uint16_t)c->place, (uint8_t)c->code, (uint8_t)c->given};
        must_be(got, want, (const uint8_t *)c->field, c->length, c->why);
        if (!is_written(&field, "", 0)) {
            fail("lent for reading", "esk_packed_read", (const uint8_t *)c->field, c->length);
            wrong_bytes(&field);
        }
    }
}

/* ---- every field of a width, against the documents' sentences ---------------------------------------------------- */

#define DIGITS "0123456789ABCDEFGHIJKLMNOPQRSTUVWXYZ:,-."

enum { WIDEST = 5 };

/* Document 01: "All spaces, `/` mixed with others, or a space after a digit is 4", and so is any other byte. */
static int is_free_of_4(const uint8_t *field, size_t width)
{
    size_t spaces = 0, solidi = 0, digits = 0, misplaced = 0;
    for (size_t i = 0; i < width; i++) {
        spaces += field[i] == ' ';
        solidi += field[i] == '/';
        digits += field[i] != 0 && strchr(DIGITS, field[i]) != NULL;
        misplaced += field[i] == ' ' && digits > 0;
    }
    return spaces < width && (solidi == 0 || solidi == width) && misplaced == 0 && spaces + solidi + digits == width;
}

/* "In k digits, most significant first, the figure is the base-40 number less 20*40^(k-1)"; "the fewest digits that
 * hold the figure are its one spelling (else 6)". */
static esk_packed figure_of(const uint8_t *field, size_t width)
{
    esk_packed figure = {0, 0, 0, 1}, missing = {0, 0, 0, 0}, respelt = {0, 0, ESK_SPELLING, 0};
    int32_t half = 0, shorter = 0;
    if (field[0] == '/')
        return missing;
    for (size_t i = 0; i < width; i++)
        if (field[i] != ' ') {
            figure.number = figure.number * 40 + (int32_t)(strchr(DIGITS, field[i]) - DIGITS);
            shorter = half;
            half = half == 0 ? 20 : half * 40;
        }
    figure.number -= half;
    return figure.number >= -shorter && figure.number < shorter ? respelt : figure;
}

/* The fields of a width over some bytes are counted: the number of one, written in that many digits, is its bytes. */
static void field_of(size_t number, const uint8_t *letters, size_t count, uint8_t *field, size_t width)
{
    while (width-- > 0) {
        field[width] = letters[number % count];
        number /= count;
    }
}

/* Whether any field of the width that is free of 4 begins with so many bytes, and these, by their number. */
static uint8_t begins[WIDEST][1 << 16];

/* Document 02, request 11: "the first byte, left to right, up to and with which no field of that width free of code 4
 * could begin". */
static size_t offending_byte(size_t number, size_t count, size_t width)
{
    size_t place = width - 1;
    for (size_t taken = width - 1; taken > 0; taken--)
        if (!begins[taken][number /= count])
            place = taken - 1;
    return place;
}

/* First all the fields that there are are looked at, by the documents alone; then each is handed to the call. */
static void all_fields(size_t width, const uint8_t *letters, size_t count)
{
    uint8_t field[WIDEST];
    size_t all = 1;
    for (size_t i = 0; i < width; i++)
        all *= count;
    memset(begins, 0, sizeof begins);
    for (size_t number = 0; number < all; number++) {
        size_t begin = number;
        field_of(number, letters, count, field, width);
        for (size_t taken = width - 1; taken > 0 && is_free_of_4(field, width); taken--)
            begins[taken][begin /= count] = 1;
    }
    for (size_t number = 0; number < all; number++) {
        field_of(number, letters, count, field, width);
        esk_packed want = {0, 0, ESK_BYTE, 0};
        if (is_free_of_4(field, width))
            want = figure_of(field, width);
        else
            want.place = (uint16_t)offending_byte(number, count, width);
        must_be(esk_packed_read(field, width), want, field, width, "all fields of the width");
    }
}

/* Up to three bytes every field there is; wider ones over bytes of every sort: digits, a space, a solidus, others. */
static void every_field(void)
{
    static const uint8_t sorts[] = {' ', '/', '0', 'J', 'K', '.', 'k', 0xff};
    uint8_t bytes[256];
    for (size_t i = 0; i < sizeof bytes; i++)
        bytes[i] = (uint8_t)i;
    esk_packed none = {0, 0, ESK_LENGTH, 0};
    must_be(esk_packed_read(NULL, 0), none, NULL, 0, "the field of no byte");
    for (size_t width = 1; width <= WIDEST; width++)
        all_fields(width, width <= 3 ? bytes : sorts, width <= 3 ? sizeof bytes : sizeof sorts);
}

typedef struct write_case {
    int32_t number;
    uint32_t given;
    size_t width, room;
    unsigned code;
    const char *text, *why;
} write_case;

static const write_case writes[] = {
    {-2245, 1, 3, 3, 0, "INZ", "printed"},
    {2014, 1, 3, 5, 0, "LAE", "printed, with room to spare"},
    {-275, 1, 2, 2, 0, "D5", "printed"},
    {10, 1, 2, 2, 0, " U", "printed"},
    {420, 1, 3, 3, 0, " UK", "printed"},
    {952375, 1, 5, 5, 0, " YZ9F", "printed"},
    {0, 1, 3, 3, 0, "  K", "printed: zero"},
    {20, 1, 2, 2, 0, "KK", "printed"},
    {-21, 1, 2, 2, 0, "JJ", "printed"},
    {0, 0, 2, 2, 0, "//", "printed: missing"},
    {-51200000, 1, 5, 5, 0, "00000", "lowest of five digits"},
    {51199999, 1, 5, 5, 0, ".....", "highest of five digits"},
    {0, 1, 0, 5, 1, "", "width 0"},
    {0, 1, 6, 9, 1, "", "width 6"},
    {0, 0, 6, 0, 1, "", "1 before 2"},
    {INT32_MAX, 1, 0, 0, 1, "", "1 before 5 and 2"},
    {0, 1, (size_t)-1, 5, 1, "", "the greatest width"},
    {20, 1, 1, 1, 5, "", "one above one digit"},
    {-21, 1, 1, 1, 5, "", "one below one digit"},
    {800, 1, 2, 5, 5, "", "one above two digits"},
    {-32001, 1, 3, 5, 5, "", "one below three digits"},
    {1280000, 1, 4, 5, 5, "", "one above four digits"},
    {51200000, 1, 5, 5, 5, "", "one above five digits"},
    {INT32_MIN, 1, 5, 5, 5, "", "the least number"},
    {20, 1, 1, 0, 5, "", "5 before 2"},
    {0, 1, 1, 0, 2, "", "no room"},
    {0, 1, 5, 4, 2, "", "one byte too few, though the digits would fit"},
    {0, 0, 3, 2, 2, "", "one byte too few for solidi"},
    /* of another form */
    {1, 0, 1, 1, 7, "", "missing, with a number"},
    {-1, 0, 3, 5, 7, "", "missing, with a number"},
    {INT32_MIN, 0, 5, 5, 7, "", "missing, with the least number"},
    {0x10000, 0, 5, 256, 7, "", "missing, with a number whose low bytes are 0"},
    {5, 2, 1, 1, 7, "", "given 2"},
    {0, 2, 1, 1, 7, "", "given 2, and the number 0"},
    {0, 3, 2, 2, 7, "", "given 3"},
    {0, 0x100, 2, 2, 7, "", "given 256"},
    {5, 0x10001, 2, 2, 7, "", "given 1 in its low bytes"},
    {5, 0x80000000u, 5, 5, 7, "", "given, the highest bit"},
    {5, 0xffffffffu, 5, 256, 7, "", "the greatest given"},
    {20, 2, 1, 1, 5, "", "given 2 counts as given: 5 before 7"},
    {-51200001, 0xffffffffu, 5, 0, 5, "", "5 before 7 and 2"},
    {20, 0, 1, 1, 7, "", "given 0 counts as missing: no range"},
    {INT32_MAX, 0, 5, 0, 7, "", "no range, and 7 before 2"},
    {5, 2, 1, 0, 7, "", "7 before 2"},
    {0, 2, 5, 4, 7, "", "7 before 2"},
    {0, 2, 0, 5, 1, "", "1 before 7"},
    {5, 0, 6, 9, 1, "", "1 before 7"},
    {INT32_MAX, 2, 6, 0, 1, "", "1 before 5, 7 and 2"},
};

static void write_all(int null)
{
    for (size_t i = 0; i < sizeof writes / sizeof *writes; i++) {
        const write_case *c = &writes[i];
        unsigned length = c->code == 0 ? (unsigned)c->width : 0;
        lent out;
        esk_figure figure;
        figure.number = c->number;
        figure.given = c->given;
        esk_answer got = esk_packed_write(figure, c->width, lend(&out, NULL, c->room, null), c->room);
        char input[120];
        int n = sprintf(input, "number %ld given %lu width %lu room %lu", (long)c->number, (unsigned long)c->given,
                        (unsigned long)c->width, (unsigned long)c->room);
        if (!is_answer(got, c->code, 0, length)) {
            fail(c->why, "esk_packed_write", (const uint8_t *)input, (size_t)n);
            wrong_answer(got, c->code, 0, length);
        }
        if (!is_written(&out, c->text, length)) {
            fail(c->why, "esk_packed_write", (const uint8_t *)input, (size_t)n);
            wrong_bytes(&out);
        }
    }
}

/* The layout that the header promises. */
static void layout(void)
{
    HOLD(sizeof(esk_answer) == 16 && offsetof(esk_answer, place) == 0 && offsetof(esk_answer, length) == 8);
    HOLD(offsetof(esk_answer, code) == 12 && offsetof(esk_answer, text) == 13 && offsetof(esk_answer, spare) == 14);
    HOLD(sizeof(esk_figure) == 8 && offsetof(esk_figure, number) == 0 && offsetof(esk_figure, given) == 4);
    HOLD(sizeof(esk_packed) == 8 && offsetof(esk_packed, number) == 0 && offsetof(esk_packed, place) == 4);
    HOLD(offsetof(esk_packed, code) == 6 && offsetof(esk_packed, given) == 7);
    HOLD(ESK_ACCEPTED == 0 && ESK_LENGTH == 1 && ESK_ROOM == 2 && ESK_FIXED == 3);
    HOLD(ESK_BYTE == 4 && ESK_RANGE == 5 && ESK_SPELLING == 6 && ESK_DISAGREE == 7);
}

int main(void)
{
    layout();
    for (int null = 0; null < 2; null++) {
        read_all(null);
        write_all(null);
    }
    every_field();
    printf("test_packed: %lu checks passed\n", checks);
    return 0;
}
