#include "wording.h"

#include "mark.h"
#include "places.h"

#include <stdio.h>
#include <string.h>

#define SPELT(number) #number
#define DIGITS_OF(number) SPELT(number)

const char *meaning(subject kind, unsigned code)
{
    if (code == ESK_ROOM && kind == A_JOURNAL)
        return "the journal has no room for the entry";
    if (code == ESK_LENGTH && kind == A_REPORT)
        return "a report has " DIGITS_OF(ESK_REPORT_BYTES) " bytes";
    if (code == ESK_LENGTH && kind == A_COMMAND)
        return "a command has at most " DIGITS_OF(ESK_COMMAND_BYTES) " bytes";
    if (code == ESK_LENGTH)
        return "a packed field has 1 to 5 bytes";
    if (code == ESK_FIXED && kind == A_REPORT)
        return "a fixed byte is wrong (AMDAR3, or a CR LF)";
    if (code == ESK_FIXED && kind == A_SHEET)
        return "a fixed group is wrong (a label, a / or a CR LF)";
    if (code == ESK_FIXED)
        return "a fixed byte is wrong (AWR04, or a /)";
    if (code == ESK_BYTE)
        return "a byte that is not allowed there";
    return esk_words(code);
}

const char *meaning_at(subject kind, unsigned code, const char *field)
{
    if (code != ESK_END)
        return meaning(kind, code);
    if (kind == A_SHEET)
        return "the sheet ends inside a field, or goes on behind its 913 bytes";
    return strcmp(field, BEHIND_THE_LAST) == 0 ? "bytes after the last delimiter" : "the command ends inside a field";
}

wording words_of(subject kind, esk_answer a, const uint8_t *text, size_t length)
{
    wording w = {"", ""};
    if (a.code >= ESK_FIXED && a.code <= ESK_END)
        name_place(kind, text, length, a.place, w.field, sizeof w.field);
    word_figure(kind, text, length, a, w.because, sizeof w.because);
    if (kind == A_DESIGNATOR) {
        size_t at = name_bytes(text, length < 20 ? length : 20, w.because, sizeof w.because);
        snprintf(w.because + at, sizeof w.because - at, "%s: a designator has six letters or digits, A to Z and 0 to 9",
                 length > 20 ? ".." : "");
    }
    return w;
}

void name_refusal(subject kind, esk_answer a, const wording *w, unsigned long long whole, char *to, size_t room)
{
    int at = snprintf(to, room, "code %u at byte %lu%s%s: %s", (unsigned)a.code, (unsigned long)a.place,
                      *w->field ? ", " : "", w->field, *w->because ? w->because : meaning_at(kind, a.code, w->field));
    if (a.code == ESK_LENGTH && !*w->because && (size_t)at < room)
        snprintf(to + at, room - (size_t)at, ", this one %llu", whole);
}
