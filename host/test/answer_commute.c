/*
 * answer_commute: two commands in both orders for the comparison run; answer.h has how it talks.
 *
 *   question                                        reply
 *   length (2), text, length (2), text,             esk_commute_answer of the two, and of the second and the first;
 *   esk_settings, which are valid                   where both accept, 1 or 0 (1) each: whether the joins in both
 *                                                   orders are the same bytes, and whether applying in both orders
 *                                                   leaves the same configuration
 */
#include "answer.h"

/* Whether the two join to the same bytes in both orders. */
static uint8_t same_joins(string a, string b)
{
    static uint8_t ab[ESK_COMMAND_BYTES], ba[ESK_COMMAND_BYTES];
    esk_answer one = esk_join(a.bytes, a.length, b.bytes, b.length, ab, sizeof ab);
    esk_answer other = esk_join(b.bytes, b.length, a.bytes, a.length, ba, sizeof ba);
    return one.code == 0 && other.code == 0 && one.length == other.length && memcmp(ab, ba, one.length) == 0;
}

/* A configuration after the one text and then the other. */
static esk_settings applied(esk_settings held, string first, string then)
{
    esk_applied one = esk_apply(&held, first.bytes, first.length), other = esk_apply(&held, then.bytes, then.length);
    if (one.code != 0 || other.code != 0)
        exit(2);
    return held;
}

static const uint8_t *question(const uint8_t *q)
{
    string a = string_at(q), b = string_at(a.end);
    esk_settings held;
    memcpy(&held, b.end, sizeof held);
    esk_commute_answer answers[] = {esk_commute(a.bytes, a.length, b.bytes, b.length),
                                    esk_commute(b.bytes, b.length, a.bytes, a.length)};
    give(answers, sizeof answers);
    if (answers[0].code == 0 && answers[1].code == 0) {
        esk_settings ab = applied(held, a, b), ba = applied(held, b, a);
        uint8_t same[] = {same_joins(a, b), memcmp(&ab, &ba, sizeof ab) == 0};
        give(same, sizeof same);
    }
    return b.end + sizeof held;
}
