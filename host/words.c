/*
 * words.c: what the library says of itself: words for codes and reasons, its version, the sizes of its records.
 *
 * No proof speaks of this file, and no verdict hangs on it. It is compiled into both libraries, beside the proved archive,
 * so that a caller who loads the shared one has the words too.
 */
#include "eskelvor.h"

#include <string.h>

#define COUNT(list) (sizeof(list) / sizeof *(list))
#define SPELT(number) #number
#define DIGITS_OF(number) SPELT(number)

const char *esk_words(unsigned code)
{
    static const char *const words[] = {
        "accepted",
        "a length that is not allowed: a report has " DIGITS_OF(ESK_REPORT_BYTES) " bytes, a command at most "
        DIGITS_OF(ESK_COMMAND_BYTES) ", a packed field 1 to 5",
        "the room for the text is too short",
        "a fixed byte is wrong: AWR04, AMDAR3, a CR LF or a delimiter /",
        "a byte that is not allowed in its field",
        "a number outside its range",
        "a number in a spelling other than its one spelling",
        "fields disagree",
        "the command ends inside a field, or has bytes after its last delimiter",
        "nothing waits for that aircraft and no slot is free",
        "the board is not valid",
        "nothing waits for that aircraft",
        "the configuration is not valid",
        "not granted to the office, or the two grants overlap",
        "the journal is broken",
    };
    return code < COUNT(words) ? words[code] : "an unknown code";
}

const char *esk_reason_words(unsigned reason)
{
    static const char *const words[] = {
        "no reason: the question was refused",
        "AMDAR is off",
        "the hour is in the hours of silence",
        "the position is inside an inhibiting box",
        "the position is outside every reporting box",
        "the flag of the phase is 1",
        "without a scheme, a section asks for routine reports",
        "the flag of the phase is 0",
        "the airfield is inhibited for the phase",
        "the airfield is not selected for the phase",
    };
    return reason < COUNT(words) ? words[reason] : "an unknown reason";
}

const char *esk_version(void) { return ESK_VERSION; }

size_t esk_size_of(const char *record)
{
#define RECORD(name) {#name, sizeof(name)}
    static const struct {
        const char *name;
        size_t size;
    } records[] = {
        RECORD(esk_answer),   RECORD(esk_figure),     RECORD(esk_packed),   RECORD(esk_observation),
        RECORD(esk_point),    RECORD(esk_track),
        RECORD(esk_report),   RECORD(esk_report_got), RECORD(esk_edge),     RECORD(esk_region),
        RECORD(esk_boxes),    RECORD(esk_airfields),  RECORD(esk_regions),  RECORD(esk_by_phase),
        RECORD(esk_airports), RECORD(esk_enroute),    RECORD(esk_ascent),   RECORD(esk_descent),
        RECORD(esk_hours),    RECORD(esk_settings),   RECORD(esk_command),  RECORD(esk_command_got),
        RECORD(esk_applied),  RECORD(esk_differing),  RECORD(esk_decided),  RECORD(esk_explained),
        RECORD(esk_slot),     RECORD(esk_grant),      RECORD(esk_tail),     RECORD(esk_entry),    RECORD(esk_part),
        RECORD(esk_commute_answer), RECORD(esk_gust_answer),
        RECORD(esk_sheet_box), RECORD(esk_sheet_airport), RECORD(esk_sheet), RECORD(esk_sheet_got),
    };
#undef RECORD
    for (size_t i = 0; record != NULL && i < COUNT(records); i++)
        if (strcmp(records[i].name, record) == 0)
            return records[i].size;
    return 0;
}
