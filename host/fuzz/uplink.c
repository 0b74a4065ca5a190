/* Targets of what goes up: commands and their sections, the configuration, the decision and its reason, the join, and
 * whether the order counts. */
#include "harness.h"

#include <string.h>

/* A room for a command: up to 1023 bytes, past the longest one. */
static lent command_room(input *from)
{
    return lend_room(take_short(from) % 1024);
}

/* The input is the text. */
static void command_check(input from)
{
    lent text = lend_rest(&from);
    esk_answer ours = esk_command_check(text.ours, text.length);
    esk_answer second = second_command_check(text.second, text.length);
    hold("answer", &ours, &second, sizeof ours);
    give_back("text", text);
}

/* The input is the text. */
static void command_read(input from)
{
    lent text = lend_rest(&from);
    esk_command_got ours = esk_command_read(text.ours, text.length);
    esk_command_got second = second_command_read(text.second, text.length);
    hold("answer", &ours.answer, &second.answer, sizeof ours.answer);
    hold("command", &ours.command, &second.command, sizeof ours.command);
    give_back("text", text);
}

/* Room, record. */
static void command_write(input from)
{
    lent out = command_room(&from);
    esk_command held;
    take_into(&from, &held, sizeof held);
    lent command = lend(&held, sizeof held);
    esk_answer ours = esk_command_write((const esk_command *)command.ours, out.ours, out.length);
    esk_answer second = second_command_write(held, out.second, out.length);
    hold("answer", &ours, &second, sizeof ours);
    give_back("command", command);
    give_back("out", out);
}

/* Number, text. The answer is held against the second program's; the part that the header's own function points to
 * against the second program's bytes; and of an accepted text the number alone may be at fault. */
static void section(input from)
{
    uint8_t number = take_byte(&from);
    lent text = lend_rest(&from);
    esk_part ours = esk_section(number, text.ours, text.length);
    esk_part second = second_section(number, text.second, text.length);
    hold("answer", &ours, &second, sizeof ours);
    const uint8_t *part = esk_part_of(text.ours, ours);
    if (part != NULL)
        hold("part", part, text.second + second.place, second.length);
    if (esk_command_check(text.ours, text.length).code == ESK_ACCEPTED) {
        const uint8_t code = number < 2 || number > 9 ? ESK_RANGE : ESK_ACCEPTED;
        hold("accepted", &ours.code, &code, 1);
    }
    give_back("text", text);
}

/* There is nothing to hand over. */
static void reset(input from)
{
    esk_settings ours = esk_reset();
    esk_settings second = second_reset();
    (void)from;
    hold("settings", &ours, &second, sizeof ours);
}

/* Configuration. */
static void settings_valid(input from)
{
    esk_settings held;
    take_into(&from, &held, sizeof held);
    lent settings = lend(&held, sizeof held);
    esk_answer ours = esk_settings_valid((const esk_settings *)settings.ours);
    esk_answer second = second_settings_valid(held);
    hold("answer", &ours, &second, sizeof ours);
    give_back("settings", settings);
}

/* Configuration, text. */
static void apply(input from)
{
    esk_settings held;
    take_into(&from, &held, sizeof held);
    lent settings = lend(&held, sizeof held);
    lent text = lend_rest(&from);
    esk_applied ours = esk_apply((esk_settings *)settings.ours, text.ours, text.length);
    esk_applied second = second_apply((esk_settings *)settings.second, text.second, text.length);
    hold("answer", &ours, &second, sizeof ours);
    give_back("settings", settings);
    give_back("text", text);
}

/* Room, both configurations. Where it is accepted, our own apply of what was written must make the first into the second. */
static void difference(input from)
{
    lent out = command_room(&from);
    esk_settings one, other;
    take_into(&from, &one, sizeof one);
    take_into(&from, &other, sizeof other);
    lent first = lend(&one, sizeof one), second = lend(&other, sizeof other);
    esk_differing ours = esk_difference((const esk_settings *)first.ours, (const esk_settings *)second.ours, out.ours,
                                        out.length);
    esk_differing theirs = second_difference(one, other, out.second, out.length);
    hold("answer", &ours.answer, &theirs.answer, sizeof ours.answer);
    hold("count", &ours.count, &theirs.count, sizeof ours.count);
    hold("items", ours.items, theirs.items, sizeof ours.items);
    if (ours.answer.code == ESK_ACCEPTED) {
        esk_apply(&one, out.ours, ours.answer.length);
        hold("made", &one, &other, sizeof one);
    }
    give_back("first", first);
    give_back("second", second);
    give_back("out", out);
}

/* Configuration, phase, hour, latitude, longitude, airfield. */
static void decide(input from)
{
    esk_settings held;
    take_into(&from, &held, sizeof held);
    lent settings = lend(&held, sizeof held);
    uint8_t phase = take_byte(&from), hour = take_byte(&from);
    int32_t latitude = (int32_t)take_word(&from), longitude = (int32_t)take_word(&from);
    lent airfield = lend_rest(&from);
    esk_decided ours = esk_decide((const esk_settings *)settings.ours, phase, latitude, longitude, hour, airfield.ours,
                                  airfield.length);
    esk_decided second = second_decide(held, phase, latitude, longitude, hour, airfield.second, airfield.length);
    hold("answer", &ours, &second, sizeof ours);
    give_back("settings", settings);
    give_back("airfield", airfield);
}

/* The decision that goes with a reason, as the header says. */
static uint8_t decision_by(esk_explained e)
{
    if (e.reason == ESK_WHY_DIGIT || (e.reason == ESK_WHY_FLAG_ON && e.number == 6))
        return ESK_ROUTINE;
    return e.reason == ESK_WHY_FLAG_ON ? ESK_SCHEME : ESK_SILENT;
}

/* Configuration, phase, hour, latitude, longitude, airfield, as for decide. The whole answer is held against the second
 * program's, and then code, place and decision against esk_decide's, the reason against these. Both of our calls are lent
 * the same blocks; the second program only reads its own, so that a write into either block shows. */
static void explain(input from)
{
    esk_settings held;
    take_into(&from, &held, sizeof held);
    lent settings = lend(&held, sizeof held);
    uint8_t phase = take_byte(&from), hour = take_byte(&from);
    int32_t latitude = (int32_t)take_word(&from), longitude = (int32_t)take_word(&from);
    lent airfield = lend_rest(&from);
    const esk_settings *of = (const esk_settings *)settings.ours;
    esk_explained ours = esk_explain(of, phase, latitude, longitude, hour, airfield.ours, airfield.length);
    esk_explained second = second_explain(held, phase, latitude, longitude, hour, airfield.second, airfield.length);
    hold("answer", &ours, &second, sizeof ours);
    esk_decided decided = esk_decide(of, phase, latitude, longitude, hour, airfield.ours, airfield.length);
    esk_explained alike = {decided.place, decided.code, decided.decision, ours.reason, ours.number, 0};
    hold("decided", &ours, &alike, sizeof ours);
    const uint8_t reason[] = {ours.reason >= 1 && ours.reason <= 9, ours.reason == 0 && ours.number == 0,
                              decision_by(ours)};
    const uint8_t wanted[] = {decided.code == ESK_ACCEPTED, decided.code != ESK_ACCEPTED, decided.decision};
    hold("reason", reason, wanted, sizeof reason);
    give_back("settings", settings);
    give_back("airfield", airfield);
}

/* Room, length of the first text, both texts. */
static void join(input from)
{
    lent out = command_room(&from);
    size_t length = take_short(&from);
    lent first = lend_next(&from, length), then = lend_rest(&from);
    esk_answer ours = esk_join(first.ours, first.length, then.ours, then.length, out.ours, out.length);
    esk_answer second = second_join(first.second, first.length, then.second, then.length, out.second, out.length);
    hold("answer", &ours, &second, sizeof ours);
    give_back("first", first);
    give_back("second", then);
    give_back("out", out);
}

/* Length of the first text, both texts. The answer is held against the second program's, and of accepted texts the yes
 * or no against our own joins in both orders: it is yes exactly where these are the same bytes. */
static void commute(input from)
{
    static uint8_t ab[ESK_COMMAND_BYTES], ba[ESK_COMMAND_BYTES];
    size_t length = take_short(&from);
    lent a = lend_next(&from, length), b = lend_rest(&from);
    esk_commute_answer ours = esk_commute(a.ours, a.length, b.ours, b.length);
    esk_commute_answer second = second_commute(a.second, a.length, b.second, b.length);
    hold("answer", &ours, &second, sizeof ours);
    if (ours.code == ESK_ACCEPTED) {
        esk_answer one = esk_join(a.ours, a.length, b.ours, b.length, ab, sizeof ab);
        esk_answer other = esk_join(b.ours, b.length, a.ours, a.length, ba, sizeof ba);
        const uint8_t same = one.length == other.length && memcmp(ab, ba, one.length) == 0;
        hold("joins", &ours.yes, &same, 1);
    }
    give_back("first", a);
    give_back("second", b);
}

const target uplink_targets[] = {
    {"esk_command_check", "answer text", command_check},
    {"esk_command_read", "answer command text", command_read},
    {"esk_command_write", "answer command out", command_write},
    {"esk_section", "answer part accepted text", section},
    {"esk_reset", "settings", reset},
    {"esk_settings_valid", "answer settings", settings_valid},
    {"esk_apply", "answer settings text", apply},
    {"esk_difference", "answer count items made first second out", difference},
    {"esk_decide", "answer settings airfield", decide},
    {"esk_explain", "answer decided reason settings airfield", explain},
    {"esk_join", "answer first second out", join},
    {"esk_commute", "answer joins first second", commute},
    {NULL, NULL, NULL},
};
