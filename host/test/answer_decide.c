/*
 * answer_decide: decisions and their reasons for the comparison run; answer.h has how it talks.
 *
 *   question                                        reply
 *   esk_settings, how many (2), and for each        esk_explained and esk_decided each
 *     phase, hour, latitude (4), longitude (4), length (1), airfield (6)
 */
#include "answer.h"

enum { ASKED = 17 };

static int32_t minutes(const uint8_t *from)
{
    int32_t number;
    memcpy(&number, from, sizeof number);
    return number;
}

static const uint8_t *question(const uint8_t *q)
{
    esk_settings settings;
    memcpy(&settings, q, sizeof settings);
    q += sizeof settings;
    size_t n = number(q, 2);
    q += 2;
    for (size_t i = 0; i < n; i++, q += ASKED) {
        const uint8_t *airfield = q[10] == 0 ? NULL : q + 11;
        int32_t latitude = minutes(q + 2), longitude = minutes(q + 6);
        esk_explained explained = esk_explain(&settings, q[0], latitude, longitude, q[1], airfield, q[10]);
        esk_decided decided = esk_decide(&settings, q[0], latitude, longitude, q[1], airfield, q[10]);
        give(&explained, sizeof explained);
        give(&decided, sizeof decided);
    }
    return q;
}
