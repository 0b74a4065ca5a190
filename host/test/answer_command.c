/*
 * answer_command: commands' texts and records for the comparison run; answer.h has how it talks.
 *
 *   question                                        reply
 *   1, length (2), text                             esk_answer of the check, esk_command_got of the read; where both
 *                                                   accept, esk_answer and arena of writing that record
 *   2, esk_command, room (2)                        esk_answer, arena; where it is written, esk_command_got of the text
 */
#include "answer.h"

static void give_written(esk_answer answer, size_t room)
{
    give(&answer, sizeof answer);
    give_arena(room);
}

static const uint8_t *text_question(const uint8_t *q)
{
    string text = string_at(q);
    esk_answer check = esk_command_check(text.bytes, text.length);
    esk_command_got got = esk_command_read(text.bytes, text.length);
    give(&check, sizeof check);
    give(&got, sizeof got);
    if (check.code == 0 && got.answer.code == 0) {
        uint8_t *out = lend(ESK_COMMAND_BYTES);
        give_written(esk_command_write(&got.command, out, ESK_COMMAND_BYTES), ESK_COMMAND_BYTES);
    }
    return text.end;
}

static const uint8_t *record_question(const uint8_t *q)
{
    esk_command command;
    memcpy(&command, q, sizeof command);
    size_t room = number(q + sizeof command, 2);
    uint8_t *out = lend(room);
    esk_answer answer = esk_command_write(&command, out, room);
    give_written(answer, room);
    if (answer.code == 0) {
        esk_command_got got = esk_command_read(out, answer.length);
        give(&got, sizeof got);
    }
    return q + sizeof command + 2;
}

static const uint8_t *question(const uint8_t *q) { return q[0] == 1 ? text_question(q + 1) : record_question(q + 1); }
