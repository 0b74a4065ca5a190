/* When order is of no account: pairs that share nothing, share the same, share different, in every flag and section; the
 * law tried on configurations by esk_apply and on joined bytes by esk_join; every refusal; canaries round both texts. */
#include "uplink.h"

#include <stddef.h>

#define BOX_A H2 "0110N10S010W010E00/"
#define BOX_B H2 "000110N10S010W010E/"

/* Asks with both texts lent: they stay as they were. */
static esk_commute_answer ask(const char *a, size_t n, const char *b, size_t m, const char *why)
{
    lent one, other;
    const uint8_t *first = lend(&one, a, n, 1), *second = lend(&other, b, m, 1);
    esk_commute_answer got = esk_commute(first, n, second, m);
    bytes_hold(&one, "", 0, "esk_commute: the first text", why);
    bytes_hold(&other, "", 0, "esk_commute: the second text", why);
    return got;
}

/* Ends the program unless the answer is this one, all of its 16 bytes. */
static void commute_holds(const char *a, size_t n, const char *b, size_t m, esk_commute_answer wanted, const char *why)
{
    esk_commute_answer got = ask(a, n, b, m, why);
    checks++;
    if (memcmp(&got, &wanted, sizeof got) == 0)
        return;
    fprintf(stderr, "FAILED after %lu checks: esk_commute: %s\n", checks, why);
    show("first", (const uint8_t *)a, n);
    show("second", (const uint8_t *)b, m);
    fprintf(stderr, "  expected: code %u place %lu text %u yes %u flags %02x sections %02x\n", wanted.code,
            (unsigned long)wanted.place, wanted.text, wanted.yes, wanted.flags, wanted.sections);
    fprintf(stderr, "  got     : code %u place %lu text %u yes %u flags %02x sections %02x, spare %u %u %u\n", got.code,
            (unsigned long)got.place, got.text, got.yes, got.flags, got.sections, got.spare[0], got.spare[1],
            got.spare[2]);
    exit(1);
}

/* Two accepted texts, asked both ways round, and each with itself. */
static void apart(const char *a, const char *b, unsigned flags, unsigned sections, const char *why)
{
    esk_commute_answer yes = {0, 0, 0, 1, 0, 0, {0, 0, 0}}, wanted = yes;
    wanted.yes = flags == 0 && sections == 0;
    wanted.flags = (uint8_t)flags;
    wanted.sections = (uint8_t)sections;
    commute_holds(a, strlen(a), b, strlen(b), wanted, why);
    commute_holds(b, strlen(b), a, strlen(a), wanted, why);
    commute_holds(a, strlen(a), a, strlen(a), yes, "a text with itself");
    esk_commute_answer same = esk_commute(bytes(b), strlen(b), bytes(b), strlen(b)); /* the very same memory */
    HOLD(memcmp(&same, &yes, sizeof same) == 0);
}

static void refused(const char *a, size_t n, const char *b, size_t m, unsigned code, size_t place, unsigned text,
                    const char *why)
{
    esk_commute_answer wanted = {place, (uint8_t)code, (uint8_t)text, 0, 0, 0, {0, 0, 0}};
    commute_holds(a, n, b, m, wanted, why);
}

/* ---- every flag and every section */

static void flags(void)
{
    static const char digits[] = "019";
    for (int i = 0; i < 7; i++)
        for (int f = 0; f < 3; f++)
            for (int g = 0; g < 3; g++) {
                char a[] = NO_CHANGE, b[] = NO_CHANGE;
                a[5 + i] = digits[f];
                b[5 + i] = digits[g];
                apart(a, b, f + g == 1 ? 1u << i : 0, 0, "one flag");
                b[5 + (i + 1) % 7] = '1';
                apart(a, b, f + g == 1 ? 1u << i : 0, 0, "and another that only the second sets");
            }
    apart("AWR040000000000000000/", "AWR041111111000000000/", 0x7f, 0, "all seven");
    apart("AWR040101010000000000/", "AWR041111111000000000/", 0x55, 0, "every other");
    for (char d = '0'; d <= '2'; d++)
        for (char e = '0'; e <= '2'; e++) {
            char a[] = NO_CHANGE, b[] = NO_CHANGE;
            a[12] = d;
            b[12] = e;
            apart(a, b, 0, 0, "the downlink digits play no part");
        }
}

/* Two contents of each section, the second longer or only another in its last figure; and where the record has them. */
#define MEMBER(m) offsetof(esk_settings, m), sizeof(((esk_settings *)0)->m)
static const struct section {
    int k;
    const char *head, *one, *other;
    size_t offset, size;
} sections[] = {
    {2, H2, "0000/", "0110N10S010W010E00/", MEMBER(regions)},
    {3, H3, "01ABCD0000000/", "01ABCD0000001/", MEMBER(airports)},
    {4, H4, "151/", "150/", MEMBER(enroute)},
    {5, H5, FIVE, "1060902005120020/", MEMBER(ascent)},
    {6, H6, "0/", "1/", MEMBER(routine6)},
    {7, H7, "104020021/", "104020020/", MEMBER(descent)},
    {8, H8, "0/", "1/", MEMBER(routine8)},
    {9, H9, "2301/", "2302/", MEMBER(hours)},
};
enum { SECTIONS = sizeof sections / sizeof *sections };

static const char *text_of(int i, int other, char *to)
{
    strcpy(to, sections[i].head);
    return strcat(to, other ? sections[i].other : sections[i].one);
}

static void each_section(void)
{
    char a[64], b[64];
    for (int i = 0; i < SECTIONS; i++) {
        unsigned bit = 1u << (sections[i].k - 2);
        apart(text_of(i, 0, a), text_of(i, 1, b), 0, bit, "other contents");
        apart(text_of(i, 0, a), text_of(i, 0, b), 0, 0, "the same contents");
        apart(text_of(i, 0, a), NO_CHANGE, 0, 0, "one names it");
        for (int j = 0; j < SECTIONS; j++)
            if (j != i)
                apart(text_of(i, 0, a), text_of(j, 1, b), 0, 0, "nothing is shared");
        apart(text_of(i, 1, a), longest, 0, i == 4 ? 0 : bit, "against all sections");
    }
    apart(BOX_A, BOX_B, 0, 1, "the same boxes, in the other list");
}

/* ---- the law, on configurations and joined bytes */

static esk_settings after_both(esk_settings x, const char *a, const char *b)
{
    HOLD(esk_apply(&x, bytes(a), strlen(a)).code == 0);
    HOLD(esk_apply(&x, bytes(b), strlen(b)).code == 0);
    return x;
}

static int same_either_way(esk_settings x, const char *a, const char *b)
{
    esk_settings ab = after_both(x, a, b), ba = after_both(x, b, a);
    return memcmp(&ab, &ba, sizeof ab) == 0;
}

static size_t join(const char *a, const char *b, char *out)
{
    esk_answer got = esk_join(bytes(a), strlen(a), bytes(b), strlen(b), (uint8_t *)out, ESK_COMMAND_BYTES);
    HOLD(got.code == 0);
    out[got.length] = 0;
    return got.length;
}

/* What both set differently, by the records that the texts are read into. */
static void by_records(const char *a, const char *b, unsigned *flag_bits, unsigned *section_bits)
{
    static esk_command_got one, other;
    one = esk_command_read(bytes(a), strlen(a));
    other = esk_command_read(bytes(b), strlen(b));
    *flag_bits = *section_bits = 0;
    for (int i = 0; i < 7; i++) {
        uint8_t f = one.command.settings.flags[i], g = other.command.settings.flags[i];
        if (f != 9 && g != 9 && f != g)
            *flag_bits |= 1u << i;
    }
    for (int i = 0; i < SECTIONS; i++) {
        const struct section *s = &sections[i];
        const char *p = (const char *)&one.command.settings, *q = (const char *)&other.command.settings;
        int both = one.command.named[s->k - 2] && other.command.named[s->k - 2];
        if (both && memcmp(p + s->offset, q + s->offset, s->size) != 0)
            *section_bits |= 1u << (s->k - 2);
    }
}

static void law(const char *a, const char *b)
{
    static char ab[ESK_COMMAND_BYTES + 1], ba[ESK_COMMAND_BYTES + 1], again[ESK_COMMAND_BYTES + 1];
    unsigned flag_bits, section_bits;
    by_records(a, b, &flag_bits, &section_bits);
    apart(a, b, flag_bits, section_bits, "by the records");
    int yes = esk_commute(bytes(a), strlen(a), bytes(b), strlen(b)).yes;
    /* after reset tells the two orders apart where anything does */
    HOLD(same_either_way(esk_reset(), a, b) == yes);
    if (yes) {
        HOLD(same_either_way(after(longest), a, b));
        HOLD(same_either_way(after("AWR040101010000000000/"), a, b));
        HOLD(same_either_way(after(a), a, b));
        HOLD(same_either_way(after(b), a, b));
    }
    join(a, b, ab);
    join(b, a, ba);
    if (yes)
        HOLD(strcmp(ab, ba) == 0);
    join(b, ab, again);
    HOLD(strcmp(again, ab) == 0);
    join(a, a, again);
    HOLD(strcmp(again, a) == 0);
}

static void laws(void)
{
    static char made[2 * SECTIONS][64];
    const char *texts[2 * SECTIONS + 16];
    int n = 0;
    for (int i = 0; i < SECTIONS; i++)
        for (int other = 0; other < 2; other++)
            texts[n++] = text_of(i, other, made[2 * i + other]);
    static const char *const more[] = {NO_CHANGE, BOX_A, BOX_B, longest, "AWR040101010200000000/",
                                       "AWR041111111000000000/", "AWR049191919100400009/300/2301/",
                                       "AWR041999999000400000/151/", "AWR049999999000006089/1/0/2301/"};
    for (size_t i = 0; i < sizeof more / sizeof *more; i++)
        texts[n++] = more[i];
    for (int i = 0; i < n; i++)
        for (int j = 0; j < n; j++)
            law(texts[i], texts[j]);
}

/* Every byte of the longest command changed by itself, as far as it is still accepted. */
static void every_byte(void)
{
    static char changed[sizeof longest];
    static const char others[] = "01289ABNSWE";
    for (size_t at = 5; at < sizeof longest - 1; at++)
        for (size_t i = 0; i < sizeof others - 1; i++) {
            memcpy(changed, longest, sizeof longest);
            changed[at] = others[i];
            if (changed[at] == longest[at] || esk_command_check(bytes(changed), sizeof longest - 1).code != 0)
                continue;
            unsigned flag_bits, section_bits;
            by_records(longest, changed, &flag_bits, &section_bits);
            apart(longest, changed, flag_bits, section_bits, "one byte of the longest");
            /* a digit 9 in a flag, the downlink digit and nothing else leave the two apart in nothing */
            HOLD((flag_bits | section_bits) != 0 || (at < 12 && others[i] == '9') || at == 12);
        }
}

/* ---- refusals */

static void refusals(void)
{
    static char over[ESK_COMMAND_BYTES + 2];
    memcpy(over, longest, ESK_COMMAND_BYTES);
    refused("", 0, "", 0, 8, 0, 1, "the first text before the second");
    refused(NO_CHANGE, 22, "", 0, 8, 0, 2, "the second text");
    refused("AWR042", 6, "AWR04", 5, 4, 5, 1, "the first");
    refused(NO_CHANGE "x", 23, NO_CHANGE, 22, 8, 22, 1, "bytes after the first");
    refused(NO_CHANGE, 22, NO_CHANGE "x", 23, 8, 22, 2, "bytes after the second");
    refused(over, ESK_COMMAND_BYTES + 1, over, ESK_COMMAND_BYTES + 2, 1, 0, 1, "the first is too long");
    refused(NO_CHANGE, 22, over, ESK_COMMAND_BYTES + 1, 1, 0, 2, "the second is too long");
    refused("", 0, over, ESK_COMMAND_BYTES + 1, 8, 0, 1, "all of the first text before code 1 of the second");
    static const char *const wrong[] = {"BWR049999999000000000/", "AWR042999999000000000/", "AWR049999999300000000/",
                                        "AWR049999999300000000.", H2 "0190N90S000W180E00/", H2 "0190S90N010W010E00/",
                                        H4 "001/", H4 "x51/", H9 "2324/", H9 "2323."};
    for (size_t i = 0; i < sizeof wrong / sizeof *wrong; i++) {
        esk_answer own = esk_command_check(bytes(wrong[i]), strlen(wrong[i]));
        HOLD(own.code != 0);
        size_t n = strlen(wrong[i]);
        refused(wrong[i], n, wrong[i], n, own.code, own.place, 1, "the first's own refusal");
        refused(longest, strlen(longest), wrong[i], n, own.code, own.place, 2, "the second's own refusal");
    }
    for (size_t n = 0; n < sizeof longest - 1; n++) {
        esk_answer own = esk_command_check(bytes(longest), n);
        refused(longest, n, longest, sizeof longest - 1, own.code, own.place, 1, "the first is cut");
        refused(longest, sizeof longest - 1, longest, n, own.code, own.place, 2, "the second is cut");
    }
}

int main(void)
{
    HOLD(sizeof(esk_commute_answer) == 16);
    flags();
    each_section();
    laws();
    every_byte();
    refusals();
    printf("test_commute: %lu checks passed\n", checks);
    return 0;
}
