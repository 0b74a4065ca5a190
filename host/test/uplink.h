/* uplink.h: what the tests of commands, the configuration, decisions, joins and the board share. */
#ifndef UPLINK_H
#define UPLINK_H

#define CHECK_MOST 1024
#include "check.h"

#define NO_CHANGE "AWR049999999000000000/"
#define H2 "AWR049999999020000000/" /* names section 2 only */
#define H3 "AWR049999999003000000/"
#define H4 "AWR049999999000400000/"
#define H5 "AWR049999999000050000/"
#define H6 "AWR049999999000006000/"
#define H7 "AWR049999999000000700/"
#define H8 "AWR049999999000000080/"
#define H9 "AWR049999999000000009/"
#define FIVE "1060902005120021/" /* section 5 as after reset */
#define SEVEN "104020021/"        /* section 7 as after reset */

/* The longest command: every list full. */
#define BOX "90N90S180W180E"
#define BOXES "16" BOX BOX BOX BOX BOX BOX BOX BOX BOX BOX BOX BOX BOX BOX BOX BOX
#define EIGHT "ABCDEFGH"
#define EIGHTY EIGHT EIGHT EIGHT EIGHT EIGHT EIGHT EIGHT EIGHT EIGHT EIGHT
#define NAMES "20" EIGHTY
static const char longest[] = "AWR041111111223456789/" BOXES BOXES "/" NAMES NAMES NAMES NAMES "1/601/" FIVE
                              "1/" SEVEN "0/2301/";

static inline const uint8_t *bytes(const char *text) { return (const uint8_t *)text; }

/* Ends the program unless the answer is this one. */
static inline void answer_holds(esk_answer got, unsigned code, unsigned long place, size_t length, unsigned text,
                                const char *call, const char *why)
{
    checks++;
    if (got.code == code && got.place == place && got.length == length && got.text == text && is_spare(got))
        return;
    fprintf(stderr, "FAILED after %lu checks: %s: %s\n", checks, call, why);
    fprintf(stderr, "  expected: code %u place %lu length %lu text %u\n", code, place, (unsigned long)length, text);
    fprintf(stderr, "  got     : code %u place %lu length %u text %u\n", (unsigned)got.code, (unsigned long)got.place,
            (unsigned)got.length, (unsigned)got.text);
    exit(1);
}

/* Ends the program unless the first `length` of the bytes lent are now the text, and all else is as it was. */
static inline void bytes_hold(lent *l, const char *text, size_t length, const char *call, const char *why)
{
    if (is_written(l, text, length))
        return;
    fprintf(stderr, "FAILED after %lu checks: %s: %s\n", checks, call, why);
    wrong_bytes(l);
}

/* A configuration that is lent, between canaries, and what all of it was before the call. */
typedef struct lent_settings {
    struct guarded {
        uint8_t before[GUARD];
        esk_settings settings;
        uint8_t after[GUARD];
    } now, was;
} lent_settings;

static inline esk_settings *lend_settings(lent_settings *l, esk_settings settings)
{
    for (size_t i = 0; i < GUARD; i++) {
        l->now.before[i] = (uint8_t)(0xc3 + 29 * i);
        l->now.after[i] = (uint8_t)(0x5a + 31 * i);
    }
    l->now.settings = settings;
    memcpy(&l->was, &l->now, sizeof l->now);
    return &l->now.settings;
}

/* Ends the program unless the configuration is now this one, and the canaries are as they were. */
static inline void settings_hold(lent_settings *l, const esk_settings *settings, const char *why)
{
    memcpy(&l->was.settings, settings, sizeof *settings);
    checks++;
    if (memcmp(&l->now, &l->was, sizeof l->now) == 0)
        return;
    fprintf(stderr, "FAILED after %lu checks: the configuration: %s\n", checks, why);
    show("expected", (const uint8_t *)&l->was, sizeof l->was);
    show("got", (const uint8_t *)&l->now, sizeof l->now);
    exit(1);
}

/* The configuration after reset and an accepted command. */
static inline esk_settings after(const char *text)
{
    esk_settings settings = esk_reset();
    checks++;
    if (esk_apply(&settings, bytes(text), strlen(text)).code != 0) {
        fail("applied to the configuration after reset", "esk_apply", bytes(text), strlen(text));
        exit(1);
    }
    return settings;
}

#endif
