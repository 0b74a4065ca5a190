/* Targets of what comes down: packed figures, reports, and the gusts of raw acceleration. */
#include "harness.h"

/* The input is the field. */
static void packed_read(input from)
{
    lent field = lend_rest(&from);
    esk_packed ours = esk_packed_read(field.ours, field.length);
    esk_packed second = second_packed_read(field.second, field.length);
    hold("answer", &ours, &second, sizeof ours);
    give_back("field", field);
}

/* Number, given, width, room. */
static void packed_write(input from)
{
    esk_figure figure;
    figure.number = (int32_t)take_word(&from);
    figure.given = take_word(&from);
    size_t width = take_byte(&from);
    lent out = lend_room(take_byte(&from));
    esk_answer ours = esk_packed_write(figure, width, out.ours, out.length);
    esk_answer second = second_packed_write(figure, width, out.second, out.length);
    hold("answer", &ours, &second, sizeof ours);
    give_back("out", out);
}

/* The input is the text. */
static void report_check(input from)
{
    lent text = lend_rest(&from);
    esk_answer ours = esk_report_check(text.ours, text.length);
    esk_answer second = second_report_check(text.second, text.length);
    hold("answer", &ours, &second, sizeof ours);
    give_back("text", text);
}

/* The input is the text. */
static void report_read(input from)
{
    lent text = lend_rest(&from);
    esk_report_got ours = esk_report_read(text.ours, text.length);
    esk_report_got second = second_report_read(text.second, text.length);
    hold("answer", &ours.answer, &second.answer, sizeof ours.answer);
    hold("report", &ours.report, &second.report, sizeof ours.report);
    give_back("text", text);
}

/* The input is the text. Of ours the answer is also held against the check's. */
static void report_track(input from)
{
    lent text = lend_rest(&from);
    esk_track ours = esk_report_track(text.ours, text.length);
    esk_track second = second_report_track(text.second, text.length);
    esk_answer check = esk_report_check(text.ours, text.length);
    hold("answer", &ours.answer, &second.answer, sizeof ours.answer);
    hold("check", &ours.answer, &check, sizeof check);
    hold("count", &ours.count, &second.count, sizeof ours.count);
    hold("spare", &ours.spare, &second.spare, sizeof ours.spare);
    hold("points", ours.points, second.points, sizeof ours.points);
    give_back("text", text);
}

/* Room, record. */
static void report_write(input from)
{
    lent out = lend_room(take_byte(&from));
    esk_report report;
    take_into(&from, &report, sizeof report);
    esk_answer ours = esk_report_write(report, out.ours, out.length);
    esk_answer second = second_report_write(report, out.second, out.length);
    hold("answer", &ours, &second, sizeof ours);
    give_back("out", out);
}

/* Row, height, mass, acceleration, speed. */
static void gust(input from)
{
    uint32_t row = take_word(&from);
    int32_t height = (int32_t)take_word(&from);
    uint32_t mass = take_word(&from), acceleration = take_word(&from), speed = take_word(&from);
    esk_gust_answer ours = esk_gust(row, height, mass, acceleration, speed);
    esk_gust_answer second = second_gust(row, height, mass, acceleration, speed);
    hold("answer", &ours, &second, sizeof ours);
}

/* The input is the text. */
static void sheet_check(input from)
{
    lent text = lend_rest(&from);
    esk_answer ours = esk_sheet_check(text.ours, text.length);
    esk_answer second = second_sheet_check(text.second, text.length);
    hold("answer", &ours, &second, sizeof ours);
    give_back("text", text);
}

/* The input is the text. */
static void sheet_read(input from)
{
    lent text = lend_rest(&from);
    esk_sheet_got ours = esk_sheet_read(text.ours, text.length);
    esk_sheet_got second = second_sheet_read(text.second, text.length);
    hold("answer", &ours.answer, &second.answer, sizeof ours.answer);
    hold("sheet", &ours.sheet, &second.sheet, sizeof ours.sheet);
    hold("spare", &ours.spare, &second.spare, sizeof ours.spare);
    give_back("text", text);
}

/* Room, record. */
static void sheet_write(input from)
{
    lent out = lend_room(take_short(&from));
    esk_sheet sheet;
    take_into(&from, &sheet, sizeof sheet);
    esk_answer ours = esk_sheet_write(sheet, out.ours, out.length);
    esk_answer second = second_sheet_write(sheet, out.second, out.length);
    hold("answer", &ours, &second, sizeof ours);
    give_back("out", out);
}

const target downlink_targets[] = {
    {"esk_packed_read", "answer field", packed_read},
    {"esk_packed_write", "answer out", packed_write},
    {"esk_report_check", "answer text", report_check},
    {"esk_report_read", "answer report text", report_read},
    {"esk_report_track", "answer check count spare points text", report_track},
    {"esk_report_write", "answer out", report_write},
    {"esk_gust", "answer", gust},
    {"esk_sheet_check", "answer text", sheet_check},
    {"esk_sheet_read", "answer sheet spare text", sheet_read},
    {"esk_sheet_write", "answer out", sheet_write},
    {NULL, NULL, NULL},
};
