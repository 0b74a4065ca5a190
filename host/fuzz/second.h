/*
 * second.h: the second program's calls, as compare/second_c exports them. Each means what the call of eskelvor.h with
 * its name says, and shares no code with it.
 */
#ifndef SECOND_H
#define SECOND_H

#include "eskelvor.h"

esk_packed second_packed_read(const uint8_t *field, size_t length);
esk_answer second_packed_write(esk_figure figure, size_t width, uint8_t *out, size_t room);

esk_answer second_report_check(const uint8_t *text, size_t length);
esk_report_got second_report_read(const uint8_t *text, size_t length);
esk_track second_report_track(const uint8_t *text, size_t length);
esk_answer second_report_write(esk_report report, uint8_t *out, size_t room);

esk_answer second_sheet_check(const uint8_t *text, size_t length);
esk_sheet_got second_sheet_read(const uint8_t *text, size_t length);
esk_answer second_sheet_write(esk_sheet sheet, uint8_t *out, size_t room);

esk_gust_answer second_gust(uint32_t row, int32_t height, uint32_t mass, uint32_t acceleration, uint32_t speed);

esk_answer second_command_check(const uint8_t *text, size_t length);
esk_command_got second_command_read(const uint8_t *text, size_t length);
esk_answer second_command_write(esk_command command, uint8_t *out, size_t room);

esk_part second_section(uint8_t number, const uint8_t *text, size_t length);

esk_settings second_reset(void);
esk_answer second_settings_valid(esk_settings settings);
esk_applied second_apply(esk_settings *settings, const uint8_t *text, size_t length);
esk_differing second_difference(esk_settings first, esk_settings second, uint8_t *out, size_t room);
esk_decided second_decide(esk_settings settings, uint8_t phase, int32_t latitude, int32_t longitude, uint8_t hour,
                          const uint8_t *airfield, size_t length);
esk_explained second_explain(esk_settings settings, uint8_t phase, int32_t latitude, int32_t longitude, uint8_t hour,
                             const uint8_t *airfield, size_t length);

esk_answer second_join(const uint8_t *first, size_t first_length, const uint8_t *second, size_t second_length,
                       uint8_t *out, size_t room);

esk_commute_answer second_commute(const uint8_t *first, size_t first_length, const uint8_t *second,
                                  size_t second_length);

esk_answer second_board_check(const esk_slot *slots, size_t n, const uint8_t *area, size_t area_length);
esk_answer second_board_add(esk_slot *slots, size_t n, uint8_t *area, size_t area_length, const uint8_t *designator,
                            size_t designator_length, const uint8_t *text, size_t length);
esk_answer second_board_take(esk_slot *slots, size_t n, const uint8_t *area, size_t area_length,
                             const uint8_t *designator, size_t designator_length, uint8_t *out, size_t room);
esk_answer second_office_add(esk_slot *slots, size_t n, uint8_t *area, size_t area_length, const uint8_t *designator,
                             size_t designator_length, const uint8_t *text, size_t length, esk_grant own,
                             esk_grant other);
esk_answer second_tails_make(const esk_slot *slots, size_t n, uint8_t *list, size_t list_length);
esk_tail second_tails_find(const esk_slot *slots, size_t n, const uint8_t *list, size_t list_length,
                           const uint8_t *designator, size_t designator_length);
esk_answer second_tails_add(esk_slot *slots, size_t n, uint8_t *area, size_t area_length, uint8_t *list,
                            size_t list_length, const uint8_t *designator, size_t designator_length, const uint8_t *text,
                            size_t length);
esk_answer second_tails_take(esk_slot *slots, size_t n, const uint8_t *area, size_t area_length, uint8_t *list,
                             size_t list_length, const uint8_t *designator, size_t designator_length, uint8_t *out,
                             size_t room);

esk_answer second_journal_check(const uint8_t *journal, size_t room, size_t end);
esk_entry second_journal_last(const uint8_t *journal, size_t room, size_t end);
esk_answer second_journal_add(uint8_t *journal, size_t room, size_t end, const uint8_t *designator,
                              size_t designator_length, const uint8_t *text, size_t length);
esk_answer second_journal_drop(const uint8_t *journal, size_t room, size_t end, size_t count);
esk_answer second_journal_print(const uint8_t *journal, size_t room, size_t end, uint8_t *out, size_t out_room);
esk_answer second_journal_replay(esk_settings *settings, const uint8_t *journal, size_t room, size_t end,
                                 const uint8_t *designator, size_t designator_length);

#endif
