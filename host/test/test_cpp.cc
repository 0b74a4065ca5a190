// The header for a program in C++17: calls of every kind, records by value and by pointer, lent bytes, words. It needs no
// C++ runtime library, so that it is built wherever host/tool runs.
#define CHECK_MOST 1024
#include "check.h"
#include "reports.h"

#include <array>
#include <string_view>
#include <type_traits>

using namespace std::string_view_literals;

static_assert(std::is_trivially_copyable<esk_report>::value && std::is_standard_layout<esk_report>::value,
              "a record is plain memory");
static_assert(sizeof(esk_settings) == 614 && sizeof(esk_command) == 624 && sizeof(esk_slot) == 8, "as in C");
static_assert(sizeof(esk_entry) == 32 && std::is_trivially_copyable<esk_entry>::value, "as in C");
static_assert(sizeof(esk_part) == 16 && std::is_trivially_copyable<esk_part>::value, "as in C");
static_assert(sizeof(esk_sheet_got) == 408 && std::is_trivially_copyable<esk_sheet>::value, "as in C");
static_assert(sizeof(esk_gust_answer) == 8 && std::is_trivially_copyable<esk_gust_answer>::value, "as in C");

static const uint8_t *at(std::string_view text) { return reinterpret_cast<const uint8_t *>(text.data()); }

template <size_t N> static std::string_view text_in(const std::array<uint8_t, N> &bytes, size_t length)
{
    return {reinterpret_cast<const char *>(bytes.data()), length};
}

static constexpr auto first = "AWR041999999000400000/151/"sv, second = "AWR049199999100400009/300/2301/"sv,
                      both = "AWR041199999100400009/300/2301/"sv;

static void packed()
{
    const esk_packed got = esk_packed_read(at("INZ"sv), 3);
    HOLD(got.code == ESK_ACCEPTED && got.given == 1 && got.number == -2245);
    HOLD(esk_packed_read(at("K5"sv), 2).code == ESK_SPELLING);
    HOLD(esk_packed_read(nullptr, 0).code == ESK_LENGTH);
    lent out;
    const esk_figure missing{};
    HOLD(is_answer(esk_packed_write(missing, 3, lend(&out, nullptr, 3, 0), 3), 0, 0, 3));
    HOLD(is_written(&out, "///", 3));
}

// A record of 624 bytes by value, there and back, and one that is refused.
static void reports()
{
    const std::string_view text{full, ESK_REPORT_BYTES};
    esk_report_got got = esk_report_read(at(text), text.size());
    HOLD(got.answer.code == ESK_ACCEPTED && got.report.first.latitude.number == -2245);
    HOLD(got.report.later[0].present == 1 && got.report.later[0].altitude.given == 0);
    lent out;
    HOLD(is_answer(esk_report_write(got.report, lend(&out, nullptr, 221, 0), 221), 0, 0, ESK_REPORT_BYTES));
    HOLD(is_written(&out, text.data(), text.size()));
    got.report.first.wind_speed = esk_figure{};
    HOLD(is_answer(esk_report_write(got.report, lend(&out, nullptr, 221, 0), 221), ESK_DISAGREE, 43, 0));
    HOLD(is_written(&out, "", 0));
    got = esk_report_read(at(text), text.size() - 1);
    HOLD(got.answer.code == ESK_LENGTH && got.report.first.kind == 0);
    const esk_track track = esk_report_track(at(text), text.size());
    HOLD(track.answer.code == ESK_ACCEPTED && track.count == 8 && track.points[0].longitude.number == 8636);
    HOLD(track.points[1].longitude.given == 0 && esk_report_track(at(text), text.size() - 1).count == 0);
}

static void commands()
{
    std::array<uint8_t, ESK_COMMAND_BYTES> out{};
    esk_answer a = esk_join(at(first), first.size(), at(second), second.size(), out.data(), out.size());
    HOLD(a.code == ESK_ACCEPTED && text_in(out, a.length) == both);
    a = esk_join(at(first), first.size(), at("AWR05"sv), 5, out.data(), out.size());
    HOLD(a.code == ESK_FIXED && a.text == 2 && a.place == 0 && a.length == 0);
    esk_commute_answer order = esk_commute(at(first), first.size(), at(second), second.size());
    HOLD(order.code == ESK_ACCEPTED && order.yes == 0 && order.flags == 0 && order.sections == 1 << (4 - 2));
    order = esk_commute(at(second), second.size(), at(both), both.size());
    HOLD(order.code == ESK_ACCEPTED && order.yes == 1 && order.flags == 0 && order.sections == 0);
    esk_settings reset = esk_reset(), changed = reset;
    HOLD(esk_apply(&changed, at(second), second.size()).code == ESK_ACCEPTED);
    const esk_differing apart = esk_difference(&reset, &changed, out.data(), out.size());
    HOLD(apart.answer.code == ESK_ACCEPTED && text_in(out, apart.answer.length) == "AWR049199999000400009/300/2301/"sv);
    HOLD(apart.count == 3 && apart.items[0] == 2 && apart.items[1] == 14 && apart.items[2] == 19 && apart.items[3] == 0);
    const esk_command_got got = esk_command_read(at(both), both.size());
    HOLD(got.answer.code == ESK_ACCEPTED && got.command.settings.hours.start == 23 && got.command.named[7] == 9);
    a = esk_command_write(&got.command, out.data(), out.size());
    HOLD(a.code == ESK_ACCEPTED && text_in(out, a.length) == both);
    const esk_part part = esk_section(9, at(both), both.size()), none = esk_section(5, at(both), both.size());
    HOLD(part.code == ESK_ACCEPTED && part.length == 5 && esk_part_of(at(both), part) == at(both) + 26);
    HOLD(none.code == ESK_ACCEPTED && esk_part_of(at(both), none) == nullptr);
}

static void configuration()
{
    esk_settings held = esk_reset();
    HOLD(esk_settings_valid(&held).code == ESK_ACCEPTED);
    const esk_applied done = esk_apply(&held, at(both), both.size());
    HOLD(done.code == ESK_ACCEPTED && done.downlink == 1 && held.enroute.interval == 30);
    HOLD(esk_decide(&held, ESK_LEVEL, 0, 0, 1, at("ABCD"sv), 4).decision == ESK_ROUTINE);
    const esk_explained why = esk_explain(&held, ESK_LEVEL, 0, 0, 23, at("ABCD"sv), 4);
    HOLD(why.decision == ESK_SILENT && why.reason == ESK_WHY_HOURS);
    HOLD(esk_reason_words(why.reason) == "the hour is in the hours of silence"sv);
}

// A board that begins with all bytes 0.
static void board()
{
    std::array<esk_slot, 2> slots{};
    std::array<uint8_t, 2 * ESK_COMMAND_BYTES> area{};
    std::array<uint8_t, ESK_COMMAND_BYTES> out{};
    const auto add = [&](std::string_view aircraft, std::string_view text) {
        return esk_board_add(slots.data(), slots.size(), area.data(), area.size(), at(aircraft), aircraft.size(),
                             at(text), text.size());
    };
    const esk_grant east{{1, 0, 0, 0, 0, 0, 0}, 0, {}}, west{{0, 1, 0, 0, 0, 0, 0}, 1, {}};
    HOLD(esk_office_add(slots.data(), slots.size(), area.data(), area.size(), at("XY0001"sv), 6, at("AWR049199999000000000/"sv), 22,
                        east, west).code == ESK_NOT_GRANTED);
    const auto take = [&](std::string_view aircraft) {
        return esk_board_take(slots.data(), slots.size(), area.data(), area.size(), at(aircraft), aircraft.size(),
                              out.data(), out.size());
    };
    HOLD(esk_board_check(slots.data(), slots.size(), area.data(), area.size()).code == ESK_ACCEPTED);
    HOLD(add("XY0001"sv, first).length == first.size() && add("XY0001"sv, second).length == both.size());
    HOLD(add("XY0002"sv, first).code == ESK_ACCEPTED && add("XY0003"sv, first).code == ESK_NO_SLOT);
    const esk_answer a = take("XY0001"sv);
    HOLD(a.code == ESK_ACCEPTED && text_in(out, a.length) == both && take("XY0001"sv).code == ESK_NOTHING);
    slots[1].length = 1;
    HOLD(take("XY0002"sv).code == ESK_BOARD && esk_words(ESK_BOARD) == "the board is not valid"sv);
}

// A journal of two entries, read from its end.
static void journal()
{
    std::array<uint8_t, 100> bytes{};
    std::array<uint8_t, ESK_COMMAND_BYTES> out{};
    size_t end = 0;
    for (const auto text : {first, second}) {
        const esk_answer a = esk_journal_add(bytes.data(), bytes.size(), end, at("XY0001"sv), 6, at(text), text.size());
        HOLD(a.code == ESK_ACCEPTED && a.length == end + 9 + text.size());
        end = a.length;
    }
    HOLD(esk_journal_add(bytes.data(), bytes.size(), end, at("XY0001"sv), 6, at(first), first.size()).code == ESK_ROOM);
    HOLD(esk_journal_check(bytes.data(), bytes.size(), end).code == ESK_ACCEPTED);
    const esk_entry e = esk_journal_last(bytes.data(), bytes.size(), end);
    HOLD(e.given == 1 && e.offset == 35 && e.text == 41 && e.length == second.size());
    HOLD(esk_journal_drop(bytes.data(), bytes.size(), end, 1).length == 35);
    const esk_answer printed = esk_journal_print(bytes.data(), bytes.size(), 35, out.data(), out.size());
    HOLD(text_in(out, printed.length) == "0 XY0001 AWR041999999000400000/151/\n"sv);
    esk_settings held{};
    HOLD(esk_journal_replay(&held, bytes.data(), bytes.size(), end, at("XY0001"sv), 6).code == ESK_ACCEPTED);
    HOLD(held.enroute.interval == 30 && held.hours.start == 23);
    HOLD(esk_journal_check(bytes.data(), bytes.size(), end - 1).code == ESK_JOURNAL);
}

// An answer of eight bytes by value.
static void gust()
{
    HOLD(esk_gust(4, 10000, 54321, 1303, 101).gust == 396 && esk_gust(4, 10000, 54321, 1303, 101).code == ESK_ACCEPTED);
    HOLD(esk_gust(36, 10000, 54321, 1303, 101).gust == 0 && esk_gust(36, 10000, 54321, 1303, 101).code == ESK_RANGE);
}

// A sheet of ten boxes and fifty airports alike, read to a record of 388 bytes by value and written back.
static void sheets()
{
    std::array<uint8_t, 913> out{};
    esk_sheet sheet{};
    sheet.ascent_interval1 = sheet.ascent_interval2 = sheet.descent_interval1 = sheet.descent_interval2 = 10;
    sheet.boxes[9].longitude2 = -10800;
    memcpy(sheet.designator, "AU0115", 6);
    for (auto &airport : sheet.airports) memcpy(airport.icao, "0000", 4);
    esk_answer a = esk_sheet_write(sheet, out.data(), out.size());
    HOLD(a.code == ESK_ACCEPTED && a.length == out.size() && text_in(out, 23) == "- AMDARSTATUS3 AU0115\r\n"sv);
    const esk_sheet_got got = esk_sheet_read(out.data(), out.size());
    HOLD(got.answer.code == ESK_ACCEPTED && memcmp(&got.sheet, &sheet, sizeof sheet) == 0);
    HOLD(esk_sheet_check(out.data(), out.size() - 1).code == ESK_END && esk_sheet_check(out.data(), out.size()).code == ESK_ACCEPTED);
    sheet.boxes[9].longitude2 = -10801;
    a = esk_sheet_write(sheet, out.data(), out.size());
    HOLD(a.code == ESK_RANGE && a.place == 83 + 32 * 9 + 22);
}

int main()
{
    packed();
    reports();
    commands();
    configuration();
    board();
    journal();
    gust();
    sheets();
    HOLD(esk_version() == std::string_view{ESK_VERSION});
    printf("test_cpp: %lu checks passed\n", checks);
    return 0;
}
