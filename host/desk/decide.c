/* eskelvor decide: whether an aircraft reports. */
#include "json.h"
#include "reason.h"
#include "tell.h"

#include <stdio.h>
#include <string.h>

static void tell_decision(const question *q, esk_decided d)
{
    char position[48];
    if (!as_json) {
        name_position(q, position, sizeof position);
        printf("%s: in %s%s, at %s, in hour %02d%s%s\n", decision_names[d.decision], q->phase,
               q->phase_number == ESK_LEVEL ? " flight" : "", position, q->hour_number,
               q->airfield ? ", airfield " : "", q->airfield ? q->airfield : "");
        return;
    }
    json_object(NULL);
    json_bool("accepted", 1);
    json_number("code", d.code);
    json_word("decision", decision_names[d.decision]);
    json_question(q);
    json_close();
}

static int run(int count, char **words)
{
    question q;
    int status = take_question(count, words, &q, NULL, 0);
    if (status != FINE)
        return status;
    const char *airfield = question_airfield(&q);
    esk_decided d = esk_decide(&q.settings, q.phase_number, q.north, q.east, q.hour_number, (const uint8_t *)airfield,
                               strlen(airfield));
    if (d.code != ESK_ACCEPTED)
        return refuse_question(&q, d.code);
    tell_decision(&q, d);
    return FINE;
}

const subcommand decide_subcommand = {
    "decide",
    QUESTION_USAGE QUESTION_COMMANDS,
    "Says whether an aircraft reports: silent, routine or scheme",
    QUESTION_HELP QUESTION_NOTE,
    run,
    0,
};
