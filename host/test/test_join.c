/* Joining: document 01's join, refusals in order, every room, grouping, canaries round all three buffers. */
#include "uplink.h"

typedef struct join_case {
    const char *first, *second, *joined; /* joined is NULL where it is refused */
    unsigned code;
    unsigned long place;
    unsigned text;
    const char *why;
} join_case;

#define BOX_A H2 "0110N10S010W010E00/"
#define BOX_B H2 "000120N10S010W010E/"

static const join_case cases[] = {
    {"AWR041999999000400000/151/", "AWR049199999100400009/300/2301/", "AWR041199999100400009/300/2301/", 0, 0, 0,
     "printed"},
    {NO_CHANGE, NO_CHANGE, NO_CHANGE, 0, 0, 0, "nothing and nothing"},
    {BOX_A, BOX_B, BOX_B, 0, 0, 0, "lists are replaced, not merged"},
    {BOX_B, BOX_A, BOX_A, 0, 0, 0, "the other way round"},
    {BOX_A, H3 "000000001/", "AWR049999999023000000/0110N10S010W010E00/000000001/", 0, 0, 0, "two sections"},
    {H3 "000000001/", BOX_A, "AWR049999999023000000/0110N10S010W010E00/000000001/", 0, 0, 0, "in rising order"},
    {H5 FIVE, H5 "0036006011135010/", H5 "0036006011135010/", 0, 0, 0, "section 5 of the second"},
    {H7 SEVEN, H7 "030035010/", H7 "030035010/", 0, 0, 0, "section 7 of the second"},
    {H7 SEVEN, NO_CHANGE, H7 SEVEN, 0, 0, 0, "section 7 of the first stays"},
    {H8 "0/", H7 SEVEN, "AWR049999999000000780/" SEVEN "0/", 0, 0, 0, "section 7 goes before 8"},
    {H7 SEVEN, H6 "0/", "AWR049999999000006700/0/" SEVEN, 0, 0, 0, "and behind 6"},
    {H9 "0102/", H6 "0/", "AWR049999999000006009/0/0102/", 0, 0, 0, "the second goes in front"},
    {"AWR041010101200000000/", "AWR049999999100000000/", "AWR041010101200000000/", 0, 0, 0, "the larger downlink"},
    {"AWR041010101000000000/", "AWR040101019100000000/", "AWR040101011100000000/", 0, 0, 0, "flags of the second"},
    {"", "", NULL, 8, 0, 1, "the first text before the second"},
    {NO_CHANGE, "", NULL, 8, 0, 2, "the second text"},
    {"AWR042", "AWR04", NULL, 4, 5, 1, "the first"},
    {NO_CHANGE, H2 "0199N", NULL, 5, 24, 2, "a place in the second"},
    {NO_CHANGE, H7 "100920021/", NULL, 5, 23, 2, "interval 009"},
    {NO_CHANGE "x", NO_CHANGE, NULL, 8, 22, 1, "bytes after the first"},
};

/* Joins into a room; on success the joined text stands in it, else nothing has changed. */
static void join_holds(const char *first, size_t n, const char *second, size_t m, size_t room, const char *joined,
                       size_t length, unsigned code, unsigned long place, unsigned text, const char *why)
{
    lent one, other, out;
    const uint8_t *a = lend(&one, first, n, 1), *b = lend(&other, second, m, 1);
    esk_answer got = esk_join(a, n, b, m, lend(&out, NULL, room, 1), room);
    answer_holds(got, code, place, code == 0 ? length : 0, text, "esk_join", why);
    bytes_hold(&out, joined, code == 0 ? length : 0, "esk_join", why);
    bytes_hold(&one, "", 0, "esk_join: the first text", why);
    bytes_hold(&other, "", 0, "esk_join: the second text", why);
}

static void every_room(const char *first, const char *second, const char *joined, const char *why)
{
    size_t length = strlen(joined);
    for (size_t room = 0; room <= length + 2; room++)
        join_holds(first, strlen(first), second, strlen(second), room, joined, length, room < length ? 2 : 0, 0, 0,
                   why);
    join_holds(first, strlen(first), second, strlen(second), MOST, joined, length, 0, 0, 0, why);
}

/* The join of two accepted texts, as a string. */
static const char *join(const char *first, const char *second, char *out)
{
    esk_answer got = esk_join(bytes(first), strlen(first), bytes(second), strlen(second), (uint8_t *)out,
                              ESK_COMMAND_BYTES);
    HOLD(got.code == 0 && got.length <= ESK_COMMAND_BYTES);
    out[got.length] = 0;
    return out;
}

static void table(void)
{
    for (size_t i = 0; i < sizeof cases / sizeof *cases; i++) {
        const join_case *c = &cases[i];
        if (c->joined != NULL)
            every_room(c->first, c->second, c->joined, c->why);
        else
            for (size_t room = 0; room <= 845; room += 169)
                join_holds(c->first, strlen(c->first), c->second, strlen(c->second), room, "", 0, c->code, c->place,
                           c->text, c->why);
    }
    static char over[ESK_COMMAND_BYTES + 2];
    memcpy(over, longest, ESK_COMMAND_BYTES);
    join_holds(over, 846, over, 847, 0, "", 0, 1, 0, 1, "the first is over 845 bytes");
    join_holds(NO_CHANGE, 22, over, 846, 0, "", 0, 1, 0, 2, "the second is over 845 bytes");
    join_holds("", 0, over, 846, 0, "", 0, 8, 0, 1, "all of the first text before code 1 of the second");
}

/* Full commands, a join that shortens, one that lengthens. */
static void full(void)
{
    static char empty[ESK_COMMAND_BYTES + 1], shorter[ESK_COMMAND_BYTES + 1];
    strcpy(empty, "AWR041111111223456789/0000/");
    strcat(empty, longest + 475);
    every_room(longest, longest, longest, "full and full");
    every_room(longest, NO_CHANGE, longest, "full and nothing");
    every_room(NO_CHANGE, longest, longest, "nothing and full");
    every_room(longest, H2 "0000/", empty, "no boxes in place of 32");
    every_room(empty, longest, longest, "32 boxes in place of none");
    strcpy(shorter, "AWR041111111223456789/0000/000000000/601/" FIVE "1/" SEVEN "0/2301/");
    every_room(empty, H3 "000000000/", shorter, "no airfields in place of 80");
}

/* Grouping of three, and no change on either side. */
static void laws(void)
{
    static const char *const texts[] = {NO_CHANGE, BOX_A, BOX_B, H3 "01ABCD0000001/", H4 "010/", H5 FIVE, H6 "0/",
                                        H7 SEVEN, H7 "001015010/", H8 "1/", H9 "2301/", longest, "AWR040101010200000000/",
                                        "AWR049191919100400009/300/2301/"};
    enum { N = sizeof texts / sizeof *texts };
    char ab[846], bc[846], one[846], other[846];
    for (int i = 0; i < N; i++) {
        HOLD(strcmp(join(texts[i], NO_CHANGE, one), texts[i]) == 0);
        HOLD(strcmp(join(NO_CHANGE, texts[i], one), texts[i]) == 0);
        for (int j = 0; j < N; j++)
            for (int k = 0; k < N; k++) {
                join(join(texts[i], texts[j], ab), texts[k], one);
                join(texts[i], join(texts[j], texts[k], bc), other);
                HOLD(strcmp(one, other) == 0);
            }
    }
}

int main(void)
{
    table();
    full();
    laws();
    printf("test_join: %lu checks passed\n", checks);
    return 0;
}
