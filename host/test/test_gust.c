/* The derived equivalent gust: every row at the ends of every input, quotients that rounding down and rounding toward
 * zero tell apart, gusts of -1, 0, 799 and 800, against the formula written out here over the printed table. */
#include "check.h"

/* The AAA specification, section 2.2.4.1: type, reference mass in tonnes, c1 to c5. */
static const struct printed {
    const char *type, *tonnes, *c1, *c2, *c3, *c4, *c5;
} table[] = {
    {"A300B4", "120", "0.971", "2690", "79", "0.49", "19.6"},
    {"A310", "120", "19.6", "574", "32", "0.52", "23.5"},
    {"A318", "40", "34.7", "878", "28", "0.52", "40.3"},
    {"A319", "50", "33.9", "846", "29", "0.45", "39.6"},
    {"A320-200", "55", "35.9", "771", "27", "0.44", "40.7"},
    {"A321", "60", "34.8", "716", "28", "0.41", "39.3"},
    {"A330-200", "170", "5.88", "1010", "55", "0.44", "13.7"},
    {"A330-300", "170", "5.89", "1010", "54", "0.44", "13.6"},
    {"A340-200", "190", "6.36", "949", "54", "0.41", "13.7"},
    {"A340-300", "190", "6.34", "948", "54", "0.41", "13.6"},
    {"B727", "50", "6.45", "4580", "83", "0.54", "37.3"},
    {"B737-200", "30", "62.0", "351", "14", "0.64", "59.4"},
    {"B737-300", "40", "56.4", "328", "15", "0.56", "54.7"},
    {"B737-400", "40", "56.3", "329", "15", "0.56", "54.5"},
    {"B737-500", "40", "56.4", "303", "14", "0.57", "54.3"},
    {"B737-600", "40", "45.4", "420", "18", "0.57", "45.3"},
    {"B737-700", "50", "42.4", "374", "19", "0.54", "42.4"},
    {"B737-800", "50", "42.2", "350", "18", "0.57", "41.9"},
    {"B747-200", "250", "-2.41", "2230", "97", "0.65", "11.5"},
    {"B747-300", "200", "2.27", "1630", "81", "0.69", "13.3"},
    {"B747-400", "250", "-7.78", "3260", "120", "0.62", "10.2"},
    {"B747SP", "250", "7.44", "644", "48", "0.74", "12.4"},
    {"B757-200", "100", "29.2", "298", "22", "0.55", "30"},
    {"B757-300", "100", "28.9", "292", "21", "0.55", "29.7"},
    {"B767-200", "110", "12.8", "918", "46", "0.65", "19.8"},
    {"B767-300", "100", "13.1", "821", "42", "0.69", "19.4"},
    {"B767-400", "150", "12.9", "701", "45", "0.54", "18.3"},
    {"B777-200", "170", "12.6", "198", "21", "0.72", "13.0"},
    {"B777-300", "210", "13.1", "147", "19", "0.65", "12.9"},
    {"BAC111-200", "30", "55.8", "924", "27", "0.54", "60.1"},
    {"BAC111-475", "30", "50.6", "930", "28", "0.54", "55.3"},
    {"DC10-30", "200", "-6.45", "4080", "130", "0.56", "15.0"},
    {"Electra", "30", "48.9", "220", "9.1", "0.57", "41.2"},
    {"Fokker-100", "35", "52.9", "917", "27", "0.52", "57.2"},
    {"KingAir 100", "3", "70.6", "2280", "89", "0.74", "223."},
    {"L1011-500", "150", "11.7", "712", "47", "0.59", "17.1"},
};

enum { ROWS = sizeof table / sizeof *table };

/* A printed decimal with the point moved `places` to the right. */
static int64_t moved(const char *decimal, int places)
{
    int64_t number = 0;
    int minus = *decimal == '-', behind = 0;
    for (const char *at = decimal + minus; *at; at++) {
        if (*at == '.') {
            behind = 1;
            continue;
        }
        number = 10 * number + (*at - '0');
        places -= behind;
    }
    HOLD(places >= 0);
    while (places-- > 0)
        number *= 10;
    return minus ? -number : number;
}

static int64_t down(int64_t x, int64_t d)
{
    int64_t q = x / d;
    return x % d < 0 ? q - 1 : q;
}

static int64_t toward_zero(int64_t x, int64_t d) { return x / d; }

/* The rows with document 02's scales, and the reference mass in kilograms. */
static struct scaled {
    int64_t c1, c2, c3, c4, c5, reference;
} rows[ROWS];

static void scale(void)
{
    for (int i = 0; i < ROWS; i++) {
        const struct printed *p = &table[i];
        const struct scaled r = {moved(p->c1, 3), moved(p->c2, 6), moved(p->c3, 3),
                                 moved(p->c4, 2), moved(p->c5, 3), moved(p->tonnes, 3)};
        rows[i] = r;
    }
    HOLD(rows[34].c5 == 223000 && rows[32].c3 == 9100 && rows[18].c1 == -2410);
}

/* The gust of document 02's formula, by a way to divide. */
static int64_t formula(uint32_t row, int32_t h, uint32_t m, uint32_t n, uint32_t v, int64_t (*divide)(int64_t, int64_t))
{
    const struct scaled *r = &rows[row];
    int64_t mean = r->c1 + divide(r->c2, r->c3 + h);
    int64_t a = mean + divide(r->c4 * (mean - r->c5) * ((int64_t)m - r->reference), 100 * r->reference);
    return divide(10 * a * (int64_t)m * (int64_t)n, INT64_C(1000000000) * (int64_t)v);
}

static int in_range(uint32_t row, int32_t h, uint32_t m, uint32_t n, uint32_t v)
{
    return row < ROWS && -1000 <= h && h <= 50000 && 1 <= m && m <= 500000 && n <= 5000 && 1 <= v && v <= 500;
}

/* Inputs within their ranges whose gust is so, and of which another way to divide says otherwise. */
static unsigned long minus_one, zero, greatest, beyond, apart;

static void is_told(uint32_t row, int32_t h, uint32_t m, uint32_t n, uint32_t v, unsigned code, int32_t gust)
{
    esk_gust_answer got;
    memset(&got, 0xa5, sizeof got);
    got = esk_gust(row, h, m, n, v);
    checks++;
    if (got.code == code && got.gust == gust && got.spare[0] == 0 && got.spare[1] == 0 && got.spare[2] == 0)
        return;
    fprintf(stderr, "FAILED after %lu checks: esk_gust(%lu, %ld, %lu, %lu, %lu)\n", checks, (unsigned long)row, (long)h,
            (unsigned long)m, (unsigned long)n, (unsigned long)v);
    fprintf(stderr, "  expected: code %u gust %ld\n  got     : code %u gust %ld\n", code, (long)gust, got.code,
            (long)got.gust);
    exit(1);
}

static void by_formula(uint32_t row, int32_t h, uint32_t m, uint32_t n, uint32_t v)
{
    if (!in_range(row, h, m, n, v)) {
        is_told(row, h, m, n, v, 5, 0);
        return;
    }
    int64_t gust = formula(row, h, m, n, v, down);
    minus_one += gust == -1;
    zero += gust == 0;
    greatest += gust == 799;
    beyond += gust == 800;
    apart += gust != formula(row, h, m, n, v, toward_zero);
    if (0 <= gust && gust <= 799)
        is_told(row, h, m, n, v, 0, (int32_t)gust);
    else
        is_told(row, h, m, n, v, 5, 0);
}

/* The cases that document 02's sentences name, by hand. */
static void cases(void)
{
    is_told(4, 10000, 54321, 1303, 101, 0, 396);  /* toward zero it would be 397 */
    is_told(34, 0, 10000, 1, 500, 5, 0);          /* a gust of -1: toward zero it would be 0 */
    is_told(12, 20000, 50000, 3565, 150, 0, 799); /* the greatest */
    is_told(12, 20000, 50000, 3566, 150, 5, 0);   /* 800 */
    is_told(0, 0, 120000, 1000, 250, 0, 168);
    is_told(34, 50000, 500000, 0, 1, 0, 0); /* no acceleration: 0, though A is below zero */
    is_told(35, 35000, 150000, 300, 280, 0, 32);
    static const uint32_t none[] = {36, 37, 71, 128, 255, 256, 65536, 0x80000000u, UINT32_MAX - 1, UINT32_MAX};
    for (size_t i = 0; i < sizeof none / sizeof *none; i++)
        is_told(none[i], 0, 50000, 100, 250, 5, 0);
}

/* Every row with every input at and beside its ends. */
static void ends(void)
{
    static const int32_t heights[] = {INT32_MIN, -1001, -1000, -999, 0, 10001, 49999, 50000, 50001, INT32_MAX};
    static const uint32_t accelerations[] = {0, 1, 1303, 4999, 5000, 5001, UINT32_MAX};
    static const uint32_t speeds[] = {0, 1, 2, 101, 499, 500, 501, UINT32_MAX};
    for (uint32_t row = 0; row < ROWS; row++) {
        uint32_t mass = (uint32_t)rows[row].reference;
        const uint32_t masses[] = {0, 1, 2, mass - 1, mass, mass + 1, 499999, 500000, 500001, UINT32_MAX};
        for (size_t h = 0; h < sizeof heights / sizeof *heights; h++)
            for (size_t m = 0; m < sizeof masses / sizeof *masses; m++)
                for (size_t n = 0; n < sizeof accelerations / sizeof *accelerations; n++)
                    for (size_t v = 0; v < sizeof speeds / sizeof *speeds; v++)
                        by_formula(row, heights[h], masses[m], accelerations[n], speeds[v]);
    }
}

static uint64_t state = 1;

static uint32_t below(uint32_t most)
{
    state = state * UINT64_C(6364136223846793005) + UINT64_C(1442695040888963407);
    return (uint32_t)((state >> 33) % most);
}

/* Inputs anywhere within their ranges; and of each the accelerations at which the gust reaches 800. */
static void anywhere(void)
{
    for (int i = 0; i < 60000; i++) {
        uint32_t row = below(ROWS), m = below(2) ? 1 + below(500000) : 1 + below(100000), v = 1 + below(500);
        int32_t h = (int32_t)below(51001) - 1000;
        by_formula(row, h, m, below(5001), v);
        by_formula(row, h, m, below(20), v);
        by_formula(34, h, 5000 + below(20000), below(40), v); /* its A is below zero from some 6 tonnes on */
        int64_t most = formula(row, h, m, 5000, v, down);
        if (most < 800)
            continue;
        uint32_t n = (uint32_t)(5000 * INT64_C(800) / most);
        for (uint32_t beside = n > 2 ? n - 2 : 0; beside <= n + 2; beside++)
            by_formula(row, h, m, beside, v);
    }
    HOLD(minus_one > 100 && zero > 100 && greatest > 100 && beyond > 100 && apart > 1000);
}

/* The layout that the header promises. */
static void layout(void)
{
    HOLD(sizeof(esk_gust_answer) == 8 && offsetof(esk_gust_answer, gust) == 0);
    HOLD(offsetof(esk_gust_answer, code) == 4 && offsetof(esk_gust_answer, spare) == 5);
    HOLD(ROWS == 36);
}

int main(void)
{
    layout();
    scale();
    cases();
    ends();
    anywhere();
    printf("test_gust: %lu checks passed\n", checks);
    return 0;
}
