/* What the library says of itself: words for every code and reason and for all others, its version, its sizes. */
#include "check.h"

enum { CODES = 15, REASONS = 10 };

/* A few letters of what each must speak of, so that no two can change places. */
static const char *const of_codes[CODES] = {
    "accepted", "220",   "room",        "fixed", "not allowed in its field", "range", "one spelling", "disagree",
    "ends",     "no slot", "board is not", "nothing waits for that aircraft", "configuration is not",
    "not granted", "journal is broken",
};

static const char *const of_reasons[REASONS] = {
    "refused",       "AMDAR",        "hours of silence", "inside an inhibiting", "outside every reporting",
    "flag of the phase is 1", "routine", "flag of the phase is 0", "inhibited",  "not selected",
};

typedef const char *(*words_call)(unsigned);

/* Printable ASCII, not empty, no full stop: the caller puts it into a sentence. */
static void is_phrase(const char *words)
{
    size_t length = strlen(words);
    HOLD(length > 0 && length < 120);
    HOLD(words[length - 1] != '.');
    for (size_t i = 0; i < length; i++)
        HOLD(words[i] >= ' ' && words[i] <= '~');
}

static void all_words(words_call call, const char *const *needles, unsigned count, const char *unknown)
{
    for (unsigned i = 0; i < count; i++) {
        const char *words = call(i);
        HOLD(words != NULL && strstr(words, needles[i]) != NULL);
        HOLD(strcmp(words, unknown) != 0);
        is_phrase(words);
        for (unsigned j = 0; j < i; j++)
            HOLD(strcmp(words, call(j)) != 0);
        HOLD(call(i) == words); /* the words stay */
    }
    for (unsigned i = count; i < 70000; i++)
        HOLD(call(i) != NULL && strcmp(call(i), unknown) == 0);
    HOLD(strcmp(call((unsigned)-1), unknown) == 0);
    HOLD(strcmp(call(1u << 31), unknown) == 0);
    HOLD(strcmp(call(256), unknown) == 0); /* not taken for a byte */
}

/* The numbers that calls do answer have the words that are theirs. */
static void words_of_answers(void)
{
    esk_settings settings = esk_reset();
    esk_explained e = esk_explain(&settings, ESK_LEVEL, 0, 0, 0, (const uint8_t *)"ABCD", 4);
    HOLD(strstr(esk_words(esk_packed_read((const uint8_t *)"K5", 2).code), "one spelling") != NULL);
    HOLD(strstr(esk_words(esk_command_check(NULL, 0).code), "ends inside") != NULL);
    HOLD(strstr(esk_words(esk_report_check(NULL, 0).code), "220") != NULL);
    HOLD(strstr(esk_words(esk_journal_check(NULL, 0, 1).code), "journal is broken") != NULL);
    HOLD(strstr(esk_reason_words(e.reason), "flag of the phase is 1") != NULL);
    settings.flags[0] = 0;
    e = esk_explain(&settings, ESK_LEVEL, 0, 0, 0, (const uint8_t *)"ABCD", 4);
    HOLD(strstr(esk_reason_words(e.reason), "AMDAR is off") != NULL);
    settings.flags[0] = 9;
    e = esk_explain(&settings, ESK_LEVEL, 0, 0, 0, (const uint8_t *)"ABCD", 4);
    HOLD(strstr(esk_reason_words(e.reason), "refused") != NULL);
    HOLD(strstr(esk_words(e.code), "configuration is not valid") != NULL);
}

#define SIZE(name) HOLD(esk_size_of(#name) == sizeof(name))

static void sizes(void)
{
    SIZE(esk_answer);
    SIZE(esk_figure);
    SIZE(esk_packed);
    SIZE(esk_observation);
    SIZE(esk_report);
    SIZE(esk_report_got);
    SIZE(esk_point);
    SIZE(esk_track);
    SIZE(esk_edge);
    SIZE(esk_region);
    SIZE(esk_boxes);
    SIZE(esk_airfields);
    SIZE(esk_regions);
    SIZE(esk_by_phase);
    SIZE(esk_airports);
    SIZE(esk_enroute);
    SIZE(esk_ascent);
    SIZE(esk_descent);
    SIZE(esk_hours);
    SIZE(esk_settings);
    SIZE(esk_command);
    SIZE(esk_command_got);
    SIZE(esk_applied);
    SIZE(esk_differing);
    SIZE(esk_decided);
    SIZE(esk_explained);
    SIZE(esk_slot);
    SIZE(esk_grant);
    SIZE(esk_tail);
    SIZE(esk_entry);
    SIZE(esk_part);
    SIZE(esk_commute_answer);
    SIZE(esk_gust_answer);
    SIZE(esk_sheet_box);
    SIZE(esk_sheet_airport);
    SIZE(esk_sheet);
    SIZE(esk_sheet_got);
    /* as the header's comments say them */
    HOLD(esk_size_of("esk_report") == 624 && esk_size_of("esk_settings") == 614 && esk_size_of("esk_slot") == 8);
    HOLD(esk_size_of("esk_grant") == 16 && esk_size_of("esk_tail") == 16);
    HOLD(esk_size_of("esk_entry") == 32 && esk_size_of("esk_part") == 16 && esk_size_of("esk_commute_answer") == 16);
    HOLD(esk_size_of("esk_gust_answer") == 8 && esk_size_of("esk_differing") == 32);
    HOLD(esk_size_of("esk_point") == 24 && esk_size_of("esk_track") == 216);
    HOLD(esk_size_of("esk_sheet_box") == 10 && esk_size_of("esk_sheet_airport") == 5);
    HOLD(esk_size_of("esk_sheet") == 388 && esk_size_of("esk_sheet_got") == 408);
    HOLD(esk_size_of(NULL) == 0 && esk_size_of("") == 0 && esk_size_of("report") == 0);
    HOLD(esk_size_of("esk_answe") == 0 && esk_size_of("esk_answers") == 0 && esk_size_of("ESK_ANSWER") == 0);
}

int main(void)
{
    all_words(esk_words, of_codes, CODES, "an unknown code");
    all_words(esk_reason_words, of_reasons, REASONS, "an unknown reason");
    words_of_answers();
    HOLD(strcmp(esk_version(), ESK_VERSION) == 0);
    sizes();
    printf("test_words: %lu checks passed\n", checks);
    return 0;
}
