/*
 * One section of a command: document 02, §7, read a second time below; corner cases by name, every truncation, every
 * byte of header and counts, canaries round the text; the section's bytes lie inside the text that was lent.
 */
#include "uplink.h"

/* ---- a reading of document 02, §7 ------------------------------------------------------------------------------ */

/* What a section is made of: lists, the most entries of each and the bytes of one, then so many digits and a '/'. */
typedef struct form {
    unsigned lists, most, width, digits;
} form;

static const form forms[10] = {
    [2] = {2, 16, 14, 0}, [3] = {4, 20, 4, 1}, [4] = {0, 0, 0, 3}, [5] = {0, 0, 0, 16},
    [6] = {0, 0, 0, 1},   [7] = {0, 0, 0, 9},  [8] = {0, 0, 0, 1}, [9] = {0, 0, 0, 4},
};

static int is_form(unsigned k) { return forms[k].lists + forms[k].digits > 0; }

static esk_part answer(unsigned code, size_t place, size_t length)
{
    return (esk_part){place, (uint32_t)length, (uint8_t)code, {0, 0, 0}};
}

static int head_byte(size_t at, uint8_t b)
{
    if (at < 12)
        return b == '0' || b == '1' || b == '9';
    if (at == 12)
        return b >= '0' && b <= '2';
    unsigned k = (unsigned)at - 11;
    return b == '0' || (is_form(k) && b == '0' + k);
}

/* Code 8 as long as no byte is wrong, so that a header that is whole has place 22. */
static esk_part read_head(const uint8_t *text, size_t length)
{
    if (length < 5)
        return answer(8, 0, 0);
    if (memcmp(text, "AWR04", 5) != 0)
        return answer(3, 0, 0);
    for (size_t at = 5; at < 21; at++) {
        if (length <= at)
            return answer(8, at, 0);
        if (!head_byte(at, text[at]))
            return answer(4, at, 0);
    }
    return length <= 21 ? answer(8, 21, 0) : text[21] != '/' ? answer(3, 21, 0) : answer(8, 22, 0);
}

/* Section k from `start` on: its bounds, or the refusal. */
static esk_part read_section(unsigned k, const uint8_t *text, size_t length, size_t start)
{
    const form *f = &forms[k];
    size_t at = start;
    for (unsigned i = 0; i < f->lists; i++) {
        if (at > length)
            return answer(8, start, 0);
        if (length - at < 2)
            return answer(8, at, 0);
        unsigned tens = text[at] - '0', ones = text[at + 1] - '0';
        if (tens > 9 || ones > 9)
            return answer(4, at, 0);
        if (10 * tens + ones > f->most)
            return answer(5, at, 0);
        at += 2 + f->width * (10 * tens + ones);
    }
    at += f->digits + 1;
    return at > length ? answer(8, start, 0) : answer(0, start, at - start);
}

static esk_part reading(uint32_t number, const uint8_t *text, size_t length)
{
    if (number < 2 || number > 9)
        return answer(5, 0, 0);
    if (length > ESK_COMMAND_BYTES)
        return answer(1, 0, 0);
    esk_part part = read_head(text, length);
    if (part.place < 22)
        return part;
    if (text[11 + number] == '0')
        return answer(0, 0, 0);
    part.length = 0;
    for (unsigned k = 2; k <= number; k++)
        if (text[11 + k] != '0') {
            part = read_section(k, text, length, part.place + part.length);
            if (part.code != 0)
                break;
        }
    return part;
}

/* ---- the call beside it ---------------------------------------------------------------------------------------- */

static void part_holds(esk_part got, esk_part want, const char *why, uint32_t number, const uint8_t *text,
                       size_t length)
{
    checks++;
    if (got.code == want.code && got.place == want.place && got.length == want.length && got.spare[0] == 0 &&
        got.spare[1] == 0 && got.spare[2] == 0)
        return;
    fail(why, "esk_section", text, length);
    fprintf(stderr, "  section : %lu\n", (unsigned long)number);
    fprintf(stderr, "  expected: code %u place %lu length %u\n", want.code, (unsigned long)want.place, want.length);
    fprintf(stderr, "  got     : code %u place %lu length %u\n", got.code, (unsigned long)got.place, got.length);
    exit(1);
}

/* Asked of a text between canaries: nothing is written, and the part lies inside the text. */
static void section_holds(uint32_t number, const void *text, size_t length, esk_part want, const char *why)
{
    static lent lends;
    const uint8_t *t = lend(&lends, text, length, 1);
    esk_part got = esk_section(number, t, length);
    part_holds(got, want, why, number, t, length);
    bytes_hold(&lends, "", 0, "esk_section", why);
    const uint8_t *part = esk_part_of(t, got);
    if (got.length == 0) {
        HOLD(part == NULL);
        return;
    }
    HOLD(part >= lends.now + GUARD + 22 && part + got.length <= lends.now + GUARD + length);
    HOLD(part == t + got.place && memcmp(part, (const uint8_t *)text + got.place, got.length) == 0);
}

static const uint32_t numbers[] = {0, 1, 2, 3, 4, 5, 6, 7, 8, 9, 10, 50, 256 + 5, 65536 + 5, 0x80000002, 0xffffffff};

/* Every number, as the reading has it. */
static void as_read(const void *text, size_t length, const char *why)
{
    for (size_t i = 0; i < sizeof numbers / sizeof *numbers; i++)
        section_holds(numbers[i], text, length, reading(numbers[i], text, length), why);
}

/* ---- cases ------------------------------------------------------------------------------------------------------ */

typedef struct section_case {
    const char *text;
    uint32_t number;
    unsigned code;
    unsigned long place;
    const char *part; /* of code 0 */
    const char *why;
} section_case;

#define H23 "AWR049999999023000000/" /* sections 2 and 3 */
#define H2349 "AWR049999999023400009/"
#define BOX_HERE "60N40S010W005E"

static const section_case cases[] = {
    {H23 "00", 2, 8, 24, "", "the second count would begin at the end"},
    {H23 "01", 2, 8, 22, "", "the second count would begin past the end"},
    {H23 "0000", 2, 8, 22, "", "only the delimiter is missing"},
    {H23 "0000?", 2, 0, 22, "0000?", "a delimiter isn't looked at"},
    {H23 "000", 2, 8, 24, "", "a count is cut"},
    {H23, 2, 8, 22, "", "the first count would begin at the end"},
    {H23, 4, 0, 0, "", "a section that isn't named, at once"},
    {H23, 3, 8, 22, "", "the section before it is cut"},
    {NO_CHANGE, 5, 0, 0, "", "nothing is named"},
    {NO_CHANGE, 7, 0, 0, "", "section 7 isn't"},
    {"", 5, 8, 0, "", "no text"},
    {"", 10, 5, 0, "", "the number before all else"},
    {"AWR05", 1, 5, 0, "", "the number before the header"},
    {"AWR05", 2, 3, 0, "", "the header's refusals"},
    {"AWR042", 2, 4, 5, "", "a flag"},
    {"AWR049999999030000000/", 5, 4, 13, "", "an indicator that isn't its own number, before what is not named"},
    {"AWR049999999000000000?", 5, 3, 21, "", "the header's delimiter, before what is not named"},
    {H23 "0000/00000000", 3, 8, 27, "", "the digit behind four empty lists is missing"},
    {H23 "0000/000000001/", 3, 0, 27, "000000001/", "behind section 2"},
    {H23 "0000?000000009?", 3, 0, 27, "000000009?", "neither delimiters nor digits are looked at"},
    {H23 "17", 3, 5, 22, "", "a count of boxes above 16, on the way"},
    {H23 "1a", 3, 4, 22, "", "a count with another byte, on the way"},
    {H23 "16", 3, 8, 22, "", "16 boxes that aren't there"},
    {H23 "01" BOX_HERE, 2, 8, 38, "", "the second count would begin at the end, behind a box"},
    {H23 "01aaaaaaaaaaaaaa00/", 2, 0, 22, "01aaaaaaaaaaaaaa00/", "boxes aren't looked at"},
    {H23 "0000/21", 3, 5, 27, "", "a count of airfields above 20"},
    {H23 "0000/20", 3, 8, 27, "", "20 airfields that aren't there"},
    {H23 "0000/00\xff\xff", 3, 4, 29, "", "bytes above 127 in a count"},
    {H2349 "0000/000000001/151/2301/", 4, 0, 37, "151/", "in the middle"},
    {H2349 "0000/000000001/151/2301/", 9, 0, 41, "2301/", "at the end"},
    {H2349 "0000/000000001/151/2301", 9, 8, 41, "", "the last delimiter is missing"},
    {H2349 "0000/000000001/151/2301", 4, 0, 37, "151/", "what follows isn't looked at"},
    {H2349 "0000/000000001/151/2301/and more", 9, 0, 41, "2301/", "nor bytes behind the last"},
    {"AWR041199999100400009/300/2301/", 9, 0, 26, "2301/", "the printed command"},
    {"AWR041199999100400009/300/2301/", 4, 0, 22, "300/", "the printed command"},
};

static void table(void)
{
    for (size_t i = 0; i < sizeof cases / sizeof *cases; i++) {
        const section_case *c = &cases[i];
        section_holds(c->number, c->text, strlen(c->text), answer(c->code, c->place, strlen(c->part)), c->why);
        if (c->code == 0)
            HOLD(strncmp(c->text + c->place, c->part, strlen(c->part)) == 0);
        as_read(c->text, strlen(c->text), c->why);
    }
    static char over[ESK_COMMAND_BYTES + 2];
    memcpy(over, longest, ESK_COMMAND_BYTES);
    section_holds(2, over, ESK_COMMAND_BYTES + 1, answer(1, 0, 0), "over the longest");
    section_holds(7, over, ESK_COMMAND_BYTES + 1, answer(1, 0, 0), "over the longest, before what is not named");
    section_holds(1, over, ESK_COMMAND_BYTES + 1, answer(5, 0, 0), "the number before the length");
}

/* ---- texts of all shapes ---------------------------------------------------------------------------------------- */

static const char *const texts[] = {
    NO_CHANGE,
    H2 "0000/",
    H2 "01" BOX_HERE "01" BOX_HERE "/",
    H3 "0001ABCD00001/",
    H4 "601/",
    H5 FIVE,
    H6 "1/",
    H7 SEVEN,
    H8 "0/",
    H9 "2301/",
    H23 "02" BOX_HERE BOX_HERE "00/01ABCD02ABCDEFGH00011234" "0/",
    H2349 "0001" BOX_HERE "/000000001/151/2301/",
    "AWR041111111223456089/0000/000000001/601/" FIVE "1/0/2301/",
    "AWR041111111223456789/0000/000000001/601/" FIVE "1/" SEVEN "0/2301/",
    longest,
};
enum { TEXTS = sizeof texts / sizeof *texts };

/* An accepted text is its header and then the sections found in it, one behind the other. */
static void in_pieces(const char *text)
{
    size_t length = strlen(text), at = 22;
    HOLD(esk_command_check(bytes(text), length).code == 0);
    for (unsigned k = 2; k <= 9; k++) {
        esk_part part = esk_section(k, bytes(text), length);
        HOLD(part.code == 0);
        HOLD((part.length > 0) == (text[11 + k] != '0'));
        if (part.length == 0)
            continue;
        HOLD(part.place == at && text[at + part.length - 1] == '/');
        at += part.length;
    }
    HOLD(at == length);
}

static void truncations(const char *text)
{
    for (size_t length = strlen(text) + 1; length-- > 0;)
        as_read(text, length, "cut short");
}

/* Each of its first bytes as every byte there is; of a long text those that are header and counts. */
static void every_byte(const char *text, size_t from, size_t to)
{
    static uint8_t changed[ESK_COMMAND_BYTES];
    size_t length = strlen(text);
    memcpy(changed, text, length);
    for (size_t at = from; at < to && at < length; at++) {
        for (unsigned b = 0; b < 256; b++) {
            changed[at] = (uint8_t)b;
            for (unsigned k = 2; k <= 9; k++)
                section_holds(k, changed, length, reading(k, changed, length), "another byte");
        }
        changed[at] = (uint8_t)text[at];
    }
}

int main(void)
{
    table();
    for (size_t i = 0; i < TEXTS; i++) {
        in_pieces(texts[i]);
        truncations(texts[i]);
    }
    for (size_t i = 0; i < TEXTS - 1; i++)
        every_byte(texts[i], 0, strlen(texts[i]));
    /* of the longest: the header, both counts of section 2, the four of section 3 and what follows it */
    every_byte(longest, 0, 25);
    every_byte(longest, 248, 250);
    for (size_t list = 0; list < 4; list++)
        every_byte(longest, 475 + 82 * list, 475 + 82 * list + 2);
    every_byte(longest, 803, ESK_COMMAND_BYTES);
    printf("test_section: %lu checks passed\n", checks);
    return 0;
}
