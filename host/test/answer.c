/*
 * answer: packed figures and reports for the comparison run; answer.h has how it talks.
 *
 *   question                                        reply
 *   1, length (2), field                            esk_packed
 *   2, esk_figure, width (8), room (2)              esk_answer, arena
 *   3, length (2), text                             esk_answer of the check, esk_report_got of the read; where both
 *                                                   accept, esk_answer and arena of writing that record
 *   4, esk_report, room (2)                         esk_answer, arena; where it is written, esk_report_got of the text
 *   5, length (2), text                             esk_answer of the check, esk_track
 */
#include "answer.h"

static void give_written(esk_answer answer, size_t room)
{
    give(&answer, sizeof answer);
    give_arena(room);
}

static void give_report(const uint8_t *text, size_t length)
{
    esk_answer check = esk_report_check(text, length);
    esk_report_got got = esk_report_read(text, length);
    give(&check, sizeof check);
    give(&got, sizeof got);
    if (check.code == 0 && got.answer.code == 0) {
        uint8_t *out = lend(ESK_REPORT_BYTES);
        give_written(esk_report_write(got.report, out, ESK_REPORT_BYTES), ESK_REPORT_BYTES);
    }
}

static void give_record(const uint8_t *from, size_t room)
{
    esk_report report;
    memcpy(&report, from, sizeof report);
    uint8_t *out = lend(room);
    esk_answer answer = esk_report_write(report, out, room);
    give_written(answer, room);
    if (answer.code == 0) {
        esk_report_got got = esk_report_read(out, ESK_REPORT_BYTES);
        give(&got, sizeof got);
    }
}

static void give_track(const uint8_t *text, size_t length)
{
    esk_answer check = esk_report_check(text, length);
    esk_track track = esk_report_track(text, length);
    give(&check, sizeof check);
    give(&track, sizeof track);
}

static const uint8_t *question(const uint8_t *q)
{
    string s = string_at(q + 1);
    if (q[0] == 1) {
        esk_packed packed = esk_packed_read(s.bytes, s.length);
        give(&packed, sizeof packed);
        return s.end;
    }
    if (q[0] == 2) {
        esk_figure figure;
        memcpy(&figure, q + 1, sizeof figure);
        size_t room = number(q + 17, 2);
        uint8_t *out = lend(room);
        give_written(esk_packed_write(figure, number(q + 9, 8), out, room), room);
        return q + 19;
    }
    if (q[0] == 3) {
        give_report(s.bytes, s.length);
        return s.end;
    }
    if (q[0] == 5) {
        give_track(s.bytes, s.length);
        return s.end;
    }
    give_record(q + 1, number(q + 1 + sizeof(esk_report), 2));
    return q + 3 + sizeof(esk_report);
}
