/*
 * answer_config: the configuration for the comparison run; answer.h has how it talks.
 *
 *   question                                        reply
 *   1                                               esk_settings after reset
 *   2, esk_settings, length (2), text               esk_answer of their validity, esk_applied of the text, and the
 *                                                   settings afterwards with their guards
 *   3, esk_settings, esk_settings, room (2)         esk_differing, arena; where it is accepted, 1 or 0 (1): whether
 *                                                   applying the command to the first leaves the second, digit 0
 */
#include "answer.h"

static struct lent_settings {
    uint8_t before[GUARD];
    esk_settings settings;
    uint8_t after[GUARD];
} lent;

static const uint8_t *apply_question(const uint8_t *q)
{
    fill((uint8_t *)&lent, sizeof lent);
    memcpy(&lent.settings, q, sizeof lent.settings);
    esk_answer valid = esk_settings_valid(&lent.settings);
    give(&valid, sizeof valid);
    string text = string_at(q + sizeof lent.settings);
    esk_applied applied = esk_apply(&lent.settings, text.bytes, text.length);
    give(&applied, sizeof applied);
    give(&lent, sizeof lent);
    return text.end;
}

static const uint8_t *difference_question(const uint8_t *q)
{
    esk_settings first, second;
    memcpy(&first, q, sizeof first);
    memcpy(&second, q + sizeof first, sizeof second);
    size_t room = number(q + 2 * sizeof first, 2);
    uint8_t *out = lend(room);
    esk_differing differing = esk_difference(&first, &second, out, room);
    give(&differing, sizeof differing);
    give_arena(room);
    if (differing.answer.code == 0) {
        esk_applied applied = esk_apply(&first, out, differing.answer.length);
        uint8_t made = applied.code == 0 && applied.downlink == 0 && memcmp(&first, &second, sizeof first) == 0;
        give(&made, 1);
    }
    return q + 2 * sizeof first + 2;
}

static const uint8_t *question(const uint8_t *q)
{
    if (q[0] == 2)
        return apply_question(q + 1);
    if (q[0] == 3)
        return difference_question(q + 1);
    esk_settings reset = esk_reset();
    give(&reset, sizeof reset);
    return q + 1;
}
