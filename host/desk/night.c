/*
 * eskelvor night: a busy night. The desk sends more commands than a queue of sixteen holds to aircraft out of coverage,
 * the one that switches ascent reports on and the one that ends sampling every three seconds among the first. Then each
 * aircraft comes back, and is handed what waits for it.
 *
 * The board is kept in a file, as eskelvor board keeps one. Each aircraft's configuration after its hand-over is held
 * against the one that the desk shows, which is every command applied as it was accepted. Then the same night is played
 * on a queue of sixteen that drops the oldest. What each aircraft was handed is in a journal; at the end that is replayed.
 */
#include "night.h"

#include "config_file.h"
#include "json.h"
#include "options.h"
#include "replay.h"
#include "settings.h"

#include <stdio.h>
#include <string.h>

enum { OLD_QUEUE = 16, SHOWN = 0 }; /* SHOWN: the aircraft whose replay is shown step by step */

static esk_settings desk[AIRCRAFT], held[AIRCRAFT], old[AIRCRAFT];
static int queued[COMMANDS_MOST]; /* what the old queue would have taken: every command that is well formed */
static int queued_count, accepted;

static const uint8_t *bytes(const char *text)
{
    return (const uint8_t *)text;
}

/* What each aircraft was told before the night is in the journal too: a replay starts from reset. */
static int begin(const night_files *f)
{
    int status = FINE;
    for (int i = 0; i < AIRCRAFT && status == FINE; i++) {
        desk[i] = esk_reset();
        esk_apply(&desk[i], bytes(fleet[i].before), strlen(fleet[i].before));
        held[i] = old[i] = desk[i];
        status = night_enter(f, fleet[i].designator, bytes(fleet[i].before), strlen(fleet[i].before));
    }
    return status;
}

static void tell_sent(const sending *s, esk_answer a)
{
    if (as_json) {
        json_object(NULL);
        json_word("event", "add");
        json_word("designator", fleet[s->to].designator);
        json_word("text", s->text);
        json_number("code", a.code);
        json_number("place", (long long)a.place);
        json_number("length", a.length);
        json_close();
    } else if (a.code == ESK_NO_SLOT)
        printf("  %s  %-42s refused: code 9, no slot is free (%s)\n", fleet[s->to].designator, s->text, s->why);
    else if (a.code != ESK_ACCEPTED)
        printf("  %s  %-42s refused: code %u at byte %lu (%s)\n", fleet[s->to].designator, s->text, (unsigned)a.code,
               (unsigned long)a.place, s->why);
    else
        printf("  %s  %-42s %3lu bytes wait (%s)\n", fleet[s->to].designator, s->text, (unsigned long)a.length, s->why);
}

/* The desk sends; what is accepted is at once in the configuration that the desk shows. */
static int send(const night_files *f, int number)
{
    const sending *s = &sendings[number];
    esk_answer a;
    int status = night_add(f, fleet[s->to].designator, s->text, &a);
    if (status != FINE)
        return status;
    tell_sent(s, a);
    if (a.code == ESK_ACCEPTED || a.code == ESK_NO_SLOT)
        queued[queued_count++] = number;
    if (a.code == ESK_ACCEPTED) {
        esk_apply(&desk[s->to], bytes(s->text), strlen(s->text));
        accepted++;
    }
    return FINE;
}

/* A part of a configuration as its command has it: the flags one by one, then the sections in their order. */
typedef struct part {
    const char *at;
    int length;
} part;

static const int sections[] = {2, 3, 4, 5, 6, 7, 8, 9};

enum { SECTIONS = sizeof sections / sizeof *sections, SECTIONS_AT = 22, FLAGS_AT = 5 };

static part part_of(const char *text, int number)
{
    part p = {text + FLAGS_AT + number, 1};
    if (number < FLAGS)
        return p;
    p.at = text + SECTIONS_AT;
    for (int i = FLAGS; i < number; i++)
        p.at += strcspn(p.at, "/") + 1;
    p.length = (int)strcspn(p.at, "/");
    return p;
}

static void tell_difference(int number, part holds, part shown)
{
    int k = number < FLAGS ? 0 : sections[number - FLAGS];
    if (as_json) {
        json_object(NULL);
        if (k == 0)
            json_word("flag", flag_names[number]);
        else
            json_number("section", k);
        json_text("holds", holds.at, (size_t)holds.length);
        json_text("shown", shown.at, (size_t)shown.length);
        json_close();
        return;
    }
    if (k == 0)
        printf("          flag %s", flag_names[number]);
    else
        printf("          section %d, %s", k, section_title(k));
    printf(": %.*s, the desk shows %.*s\n", holds.length, holds.at, shown.length, shown.at);
}

/* Tells each part in which what an aircraft holds is not what the desk shows. */
static void tell_differences(const esk_settings *holds, const esk_settings *shown)
{
    char here[ESK_COMMAND_BYTES + 1] = "", there[ESK_COMMAND_BYTES + 1] = "";
    config_text(holds, (uint8_t *)here);
    config_text(shown, (uint8_t *)there);
    for (int i = 0; i < FLAGS + SECTIONS; i++) {
        part one = part_of(here, i), other = part_of(there, i);
        if (one.length != other.length || memcmp(one.at, other.at, (size_t)one.length) != 0)
            tell_difference(i, one, other);
    }
}

static void tell_held(const char *event, const char *lead, int aircraft, const esk_settings *now, int same)
{
    if (as_json) {
        json_object(NULL);
        json_word("event", event);
        json_word("designator", fleet[aircraft].designator);
        json_number("ascent", now->flags[4]);
        json_number("series_1_interval_seconds", now->ascent.interval1);
        json_bool("as_the_desk_shows", same);
        json_list("differs");
        tell_differences(now, &desk[aircraft]);
        json_close();
        json_close();
        return;
    }
    printf("  %-6s  ascent reports %s, a sample every %d seconds: %s\n", lead, now->flags[4] ? "on" : "off",
           now->ascent.interval1, same ? "as the desk shows" : "NOT WHAT THE DESK SHOWS:");
    tell_differences(now, &desk[aircraft]);
}

/* An aircraft comes back, and applies what it is handed. Counts it where it then holds what the desk shows. */
static int hand_over(const night_files *f, int aircraft, int *agree)
{
    uint8_t out[ESK_COMMAND_BYTES];
    esk_answer a;
    int status = night_take(f, fleet[aircraft].designator, out, &a);
    if (status != FINE)
        return status;
    int applied = a.code == ESK_ACCEPTED && esk_apply(&held[aircraft], out, a.length).code == ESK_ACCEPTED;
    int same = memcmp(&held[aircraft], &desk[aircraft], sizeof *desk) == 0;
    if (!as_json)
        printf("  %s  %.*s\n", fleet[aircraft].designator, (int)a.length, (const char *)out);
    tell_held("hand-over", "", aircraft, &held[aircraft], applied && same);
    *agree += applied && same;
    return FINE;
}

static void say(const char *line)
{
    if (!as_json)
        printf("\n%s\n\n", line);
}

static int evening(const night_files *f)
{
    int status = FINE;
    for (int i = 0; i < sendings_count && status == FINE; i++)
        status = send(f, i);
    return status;
}

/* The fleet comes back. The latecomer's command is sent again once a slot is free. */
static int morning(const night_files *f, int *agree)
{
    int status = FINE;
    for (int i = 0; i < AIRCRAFT && status == FINE; i++)
        if (i == LATECOMER)
            status = send(f, sendings_count);
        else
            status = hand_over(f, i, agree);
    return status == FINE ? hand_over(f, LATECOMER, agree) : status;
}

/* The last of the evening's commands, which a queue that drops the oldest would have handed over. */
static void hand_over_queue(int count)
{
    for (int i = count - OLD_QUEUE; i < count; i++) {
        const sending *s = &sendings[queued[i]];
        esk_apply(&old[s->to], bytes(s->text), strlen(s->text));
    }
}

/* Gives how many aircraft hold what the desk shows, had the queue been there. */
static int agree_with_queue(void)
{
    int agree = 0;
    for (int i = 0; i < AIRCRAFT; i++) {
        int same = memcmp(&old[i], &desk[i], sizeof *desk) == 0;
        tell_held("old queue", fleet[i].designator, i, &old[i], same);
        agree += same;
    }
    return agree;
}

/* The journal as eskelvor journal lists it, and what one aircraft's commands changed. */
static void show_journal(const journal *j)
{
    static uint8_t lines[ESK_JOURNAL_PRINTED];
    if (as_json)
        return;
    say("The journal of what was handed over, newest first:");
    esk_answer a = esk_journal_print(j->bytes, sizeof j->bytes, j->end, lines, sizeof lines);
    fwrite(lines, 1, a.length, stdout);
    printf("\n%s, replayed from reset on:\n\n", fleet[SHOWN].designator);
    replay_changes(j, fleet[SHOWN].designator);
    say("Each aircraft's configuration, by the journal alone:");
}

/* Counts the aircraft of which the journal gives what they hold, and what the desk shows. */
static int replay_all(const night_files *f, int *agree)
{
    static journal j;
    int status = journal_read(f->journal, &j);
    if (status != FINE)
        return status;
    show_journal(&j);
    for (int i = 0; i < AIRCRAFT; i++) {
        esk_settings s = esk_reset();
        const char *designator = fleet[i].designator;
        esk_answer a = esk_journal_replay(&s, j.bytes, sizeof j.bytes, j.end, bytes(designator), strlen(designator));
        int same = a.code == ESK_ACCEPTED && memcmp(&s, &desk[i], sizeof s) == 0 && memcmp(&s, &held[i], sizeof s) == 0;
        tell_held("replay", designator, i, &s, same);
        *agree += same;
    }
    return FINE;
}

/* What a queue would have done. Gives how many aircraft would then hold what the desk shows. */
static int play_queue(int in_evening)
{
    char line[160];
    snprintf(line, sizeof line, "A queue of %d would have taken %d, dropped the first %d, and told nobody:", OLD_QUEUE,
             in_evening, in_evening - OLD_QUEUE);
    say(line);
    hand_over_queue(in_evening);
    return agree_with_queue();
}

static int play(const night_files *f)
{
    int agree = 0, replayed = 0;
    char line[160];
    int status = begin(f);
    say("Four aircraft are out of coverage, and a fifth soon is; the board has four slots. The desk goes on sending.");
    if (status == FINE)
        status = evening(f);
    if (status != FINE)
        return status;
    int in_evening = queued_count;
    snprintf(line, sizeof line, "%d of %d commands accepted. Each aircraft comes back, and is handed one command:",
             accepted, sendings_count);
    say(line);
    status = morning(f, &agree);
    if (status != FINE)
        return status;
    int agree_before = play_queue(in_evening);
    if (!as_json)
        printf("\nWith the board %d of %d aircraft hold what the desk shows; with the queue %d.\n", agree, AIRCRAFT,
               agree_before);
    status = replay_all(f, &replayed);
    if (status == FINE && !as_json)
        printf("\nThe journal gives what %d of %d aircraft hold.\n", replayed, AIRCRAFT);
    return status != FINE ? status : agree == AIRCRAFT && replayed == AIRCRAFT ? FINE : REFUSED;
}

static int run(int count, char **words)
{
    static night_files f;
    if (take_options(&count, words, NULL, 0) != FINE)
        return TROUBLE;
    if (count != 0)
        return trouble(words[0], "this takes no words");
    if (night_folder(&f) != FINE)
        return TROUBLE;
    int status = board_create(f.board, NIGHT_SLOTS, 0);
    if (status == FINE)
        status = play(&f);
    night_clear(&f);
    return status;
}

const subcommand night_subcommand = {
    "night",
    "",
    "Plays a busy night on a board, and on the queue that it replaces",
    "Board and journal are kept in files of their own, in a folder under $TMPDIR or\n"
    "/tmp that is removed afterwards. At the end the journal is replayed. The status is\n"
    "0 where every aircraft holds what the desk shows and what the journal gives, 1\n"
    "where one does not.\n",
    run,
    0,
};
