/*
 * answer_gust: gusts for the comparison run; answer.h has how it talks.
 *
 *   question                                        reply
 *   row (4), height (4), mass (4),                  esk_gust_answer
 *   acceleration (4), speed (4)
 */
#include "answer.h"

static const uint8_t *question(const uint8_t *q)
{
    uint32_t row, mass, acceleration, speed;
    int32_t height;
    memcpy(&row, q, 4);
    memcpy(&height, q + 4, 4);
    memcpy(&mass, q + 8, 4);
    memcpy(&acceleration, q + 12, 4);
    memcpy(&speed, q + 16, 4);
    esk_gust_answer answer = esk_gust(row, height, mass, acceleration, speed);
    give(&answer, sizeof answer);
    return q + 20;
}
