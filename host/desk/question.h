/* question.h: what is asked of a configuration: the words that decide and why share. */
#ifndef DESK_QUESTION_H
#define DESK_QUESTION_H

#include "eskelvor.h"
#include "options.h"

/* What is asked, and the configuration that it is asked of. */
typedef struct question {
    const char *phase, *latitude, *longitude, *hour, *airfield; /* as the user wrote them; NULL: left out */
    uint8_t phase_number, hour_number;
    int32_t north, east; /* minutes */
    esk_settings settings;
} question;

/* The words that a question is made of, for a subcommand's usage and help. */
#define QUESTION_USAGE "[-c FILE] --phase PHASE --lat LAT --lon LON --hour HOUR\n           [--airfield NAME]"
#define QUESTION_COMMANDS " [COMMAND | FILE | - ].."
#define QUESTION_HELP \
    "  -c, --config FILE   the aircraft's configuration; without it, the one after\n" \
    "                      reset\n" \
    "  COMMAND..           applied to it first; it is not kept\n" \
    "  --text, --exact     commands as for eskelvor check\n" \
    "  --phase PHASE       ascent, level or descent\n" \
    "  --lat LAT           degrees, 37.5S or -37.5; degrees and minutes, 37:30S;\n" \
    "                      minutes, 2250mS or -2250m\n" \
    "  --lon LON           the same with E and W\n" \
    "  --hour HOUR         0 to 23, UTC\n" \
    "  --airfield NAME     four letters or digits; may be left out in level flight\n"
#define QUESTION_NOTE "\nDegrees are taken to the nearest minute.\n"

/* Reads a subcommand's words: the question, the configuration with the commands applied, and up to MORE_OPTIONS of its
 * own. Gives the exit status, and tells what is wrong where it is not FINE. */
enum { MORE_OPTIONS = 2 };
int take_question(int count, char **words, question *q, const option *own, size_t options);

/* The airfield that the proved call is handed. */
const char *question_airfield(const question *q);

/* Tells a refusal of the question. Gives REFUSED. */
int refuse_question(const question *q, unsigned code);

/* The question's own keys of a result. */
void json_question(const question *q);

#endif
