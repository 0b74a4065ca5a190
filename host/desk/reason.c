#include "reason.h"

#include "box.h"
#include "minutes.h"
#include "settings.h"

#include <stdio.h>
#include <string.h>

const char *const decision_names[3] = {"silent", "routine", "scheme"};

int phase_of(const char *word)
{
    static const char *const phases[] = {"ascent", "level", "descent"};
    for (int i = 0; i < 3; i++)
        if (strcmp(word, phases[i]) == 0)
            return i;
    return -1;
}

void name_position(const question *q, char *to, size_t room)
{
    char north[24], east[24];
    name_degrees(q->north, "NS", 0, north, sizeof north);
    name_degrees(q->east, "EW", 0, east, sizeof east);
    snprintf(to, room, "%s %s", north, east);
}

/* The reasons by position: inside a box, or outside of all. */
static void name_where(const question *q, esk_explained e, char *to, size_t room)
{
    char position[48], box[BOX_ROOM];
    name_position(q, position, sizeof position);
    if (e.reason == ESK_WHY_NO_REPORTING_BOX) {
        snprintf(to, room, "at %s, outside every reporting box", position);
        return;
    }
    name_box(&q->settings.regions.inhibiting.regions[e.number - 1], BOX_BRIEF, box);
    snprintf(to, room, "at %s, inside inhibiting box %d, %s", position, e.number, box);
}

void name_reason(const question *q, esk_explained e, char *to, size_t room)
{
    const esk_hours *h = &q->settings.hours;
    switch (e.reason) {
    case ESK_WHY_AMDAR_OFF: snprintf(to, room, "AMDAR is off"); break;
    case ESK_WHY_HOURS:
        snprintf(to, room, "hour %02d is in the hours of silence, from %02d:00 up to %02d:00", q->hour_number, h->start,
                 h->end);
        break;
    case ESK_WHY_INHIBITING_BOX:
    case ESK_WHY_NO_REPORTING_BOX: name_where(q, e, to, room); break;
    case ESK_WHY_FLAG_ON: snprintf(to, room, "the %s flag is 1", flag_names[e.number - 1]); break;
    case ESK_WHY_DIGIT:
        snprintf(to, room, "without the %s scheme, section %d asks for routine reports", q->phase, e.number);
        break;
    case ESK_WHY_FLAG_OFF: snprintf(to, room, "the %s flag is 0", flag_names[e.number - 1]); break;
    case ESK_WHY_INHIBITED: snprintf(to, room, "airfield %s is inhibited for %s", q->airfield, q->phase); break;
    case ESK_WHY_NOT_SELECTED: snprintf(to, room, "airfield %s is not selected for %s", q->airfield, q->phase); break;
    }
}

void name_decision(const question *q, esk_explained e, char *to, size_t room)
{
    if (e.decision == ESK_SCHEME)
        snprintf(to, room, "reports by the %s scheme", q->phase);
    else
        snprintf(to, room, "%s", e.decision == ESK_ROUTINE ? "reports routinely" : "silent");
}

const char *question_fault(const question *q, unsigned code)
{
    if (code == ESK_SETTINGS)
        return NULL;
    if (code == ESK_BYTE)
        return "an airfield is four letters A to Z or digits";
    if (q->hour_number > 23)
        return "an hour is 0 to 23";
    return "latitudes are 90S to 90N, longitudes 180W to 180E";
}
