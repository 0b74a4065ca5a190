#include "question.h"

#include "config_file.h"
#include "joining.h"
#include "json.h"
#include "minutes.h"
#include "reason.h"

#include <stdio.h>
#include <string.h>

enum { SHARED_OPTIONS = 8 };

/* The words as numbers. A number that is none is a slip; one outside its range is left to the proved call. */
static int understand(question *q)
{
    if (!q->phase || !q->latitude || !q->longitude || !q->hour)
        return trouble(NULL, "give --phase, --lat, --lon and --hour; --help tells more");
    int phase = phase_of(q->phase);
    long hour = whole_number(q->hour, 0, 255);
    if (phase < 0)
        return trouble("--phase", "ascent, level or descent");
    if (hour < 0)
        return trouble("--hour", "a whole number, 0 to 23");
    if (!minutes_of(q->latitude, "NS", &q->north))
        return trouble("--lat", "degrees or minutes: 37.5S, 37:30S, -37.5 or 2250mS");
    if (!minutes_of(q->longitude, "EW", &q->east))
        return trouble("--lon", "degrees or minutes: 144.5E, 144:30E, -144.5 or 8670mE");
    if (q->airfield == NULL && phase != ESK_LEVEL)
        return trouble("--airfield", "needed in ascent and descent");
    q->phase_number = (uint8_t)phase;
    q->hour_number = (uint8_t)hour;
    return FINE;
}

int take_question(int count, char **words, question *q, const option *own, size_t options)
{
    static joined all;
    static const question nothing;
    const char *file = NULL;
    intake in = {0, 0, 0, NULL, NULL};
    *q = nothing;
    option known[SHARED_OPTIONS + MORE_OPTIONS] = {
        VALUE_OPTION("--config", "-c", &file),      VALUE_OPTION("--phase", NULL, &q->phase),
        VALUE_OPTION("--lat", NULL, &q->latitude),  VALUE_OPTION("--lon", NULL, &q->longitude),
        VALUE_OPTION("--hour", NULL, &q->hour),     VALUE_OPTION("--airfield", NULL, &q->airfield),
        SET_OPTION("--text", &in.typed),            SET_OPTION("--exact", &in.exact)};
    for (size_t i = 0; i < options; i++)
        known[SHARED_OPTIONS + i] = own[i];
    int status = take_options(&count, words, known, SHARED_OPTIONS + options);
    if (status == FINE)
        status = understand(q);
    if (status == FINE)
        status = gather(&in, count, words, &all);
    if (status == FINE)
        status = config_read(file, &q->settings);
    return status == FINE ? apply_gathered(&all, &q->settings, file) : status;
}

/* A well-formed name stands for one that is left out: in level flight the answer does not depend on it. */
const char *question_airfield(const question *q)
{
    return q->airfield ? q->airfield : "0000";
}

int refuse_question(const question *q, unsigned code)
{
    return refuse_plain(NULL, A_SETTINGS, code, question_fault(q, code));
}

void json_question(const question *q)
{
    json_word("phase", q->phase);
    json_number("latitude_minutes", q->north);
    json_number("longitude_minutes", q->east);
    json_number("hour", q->hour_number);
    json_word("airfield", q->airfield);
}
