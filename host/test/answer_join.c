/*
 * answer_join: joins for the comparison run; answer.h has how it talks.
 *
 *   question                                        reply
 *   length (2), text, length (2), text, room (2)    esk_answer, arena
 */
#include "answer.h"

static const uint8_t *question(const uint8_t *q)
{
    string first = string_at(q), second = string_at(first.end);
    size_t room = number(second.end, 2);
    uint8_t *out = lend(room);
    esk_answer answer = esk_join(first.bytes, first.length, second.bytes, second.length, out, room);
    give(&answer, sizeof answer);
    give_arena(room);
    return second.end + 2;
}
