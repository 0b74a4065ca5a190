/*
 * answer_sheet: status sheets for the comparison run; answer.h has how it talks.
 *
 *   question                                        reply
 *   1, length (2), text                             esk_answer of the check, esk_sheet_got of the read; where both accept,
 *                                                   esk_answer and arena of writing that record
 *   2, esk_sheet, room (2)                          esk_answer, arena; where it is written, esk_sheet_got of the text
 */
#include "answer.h"

enum { SHEET = 913 };

static esk_answer give_written(esk_sheet sheet, size_t room)
{
    uint8_t *out = lend(room);
    esk_answer written = esk_sheet_write(sheet, out, room);
    give(&written, sizeof written);
    give_arena(room);
    return written;
}

static const uint8_t *question(const uint8_t *q)
{
    if (q[0] == 1) {
        string s = string_at(q + 1);
        esk_answer check = esk_sheet_check(s.bytes, s.length);
        esk_sheet_got got = esk_sheet_read(s.bytes, s.length);
        give(&check, sizeof check);
        give(&got, sizeof got);
        if (check.code == 0 && got.answer.code == 0)
            give_written(got.sheet, SHEET);
        return s.end;
    }
    esk_sheet sheet;
    memcpy(&sheet, q + 1, sizeof sheet);
    size_t room = number(q + 1 + sizeof sheet, 2);
    esk_answer written = give_written(sheet, room);
    if (written.code == 0) {
        esk_sheet_got got = esk_sheet_read(arena + GUARD, SHEET);
        give(&got, sizeof got);
    }
    return q + 1 + sizeof sheet + 2;
}
