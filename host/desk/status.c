/* eskelvor status: status sheets, AMDARSTATUS3, as a person would read them. */
#include "json.h"
#include "options.h"
#include "tell.h"

#include <stdio.h>
#include <stdlib.h>
#include <string.h>

enum { SHEET_BYTES = 913, BOXES = 10, AIRPORTS = 50 };

static const char *const smoothings[] = {"none", "ASDAR", "arithmetic mean"};

static const char *on(int status)
{
    return status ? "active" : "disabled";
}

/* Minutes as degrees and minutes with their letter. */
static void say_angle(int minutes, const char *letters)
{
    int size = abs(minutes);
    printf("%d\302\260%02d'%c", size / 60, size % 60, letters[minutes < 0]);
}

static void say_box(int i, const esk_sheet_box *b)
{
    printf("  box %d, %s: ", i, on(b->status));
    say_angle(b->latitude1, "NS");
    putchar(' ');
    say_angle(b->longitude1, "EW");
    printf(" to ");
    say_angle(b->latitude2, "NS");
    putchar(' ');
    say_angle(b->longitude2, "EW");
    putchar('\n');
}

static void say_sheet(const esk_sheet *x)
{
    printf("status sheet of %.6s\n", (const char *)x->designator);
    printf("  ascent %s: every %d hPa, then every %d hPa\n", on(x->ascent), x->ascent_interval1, x->ascent_interval2);
    printf("  level flight %s: every %d seconds\n", on(x->level), x->level_interval);
    printf("  descent %s: every %d hPa, then every %d hPa\n", on(x->descent), x->descent_interval1, x->descent_interval2);
    printf("  trigger levels: %d hPa and %d hPa; %d observations\n", x->trigger1, x->trigger2, x->observations);
    printf("  smoothing: %s; time constants: profile %d, cruise %d, gust %d, instant %d\n", smoothings[x->smoothing],
           x->profile_constant, x->cruise_constant, x->gust_constant, x->instant_constant);
    for (int i = 0; i < BOXES; i++)
        say_box(i, &x->boxes[i]);
    printf("  airports that are on:");
    int count = 0;
    for (int i = 0; i < AIRPORTS; i++)
        if (x->airports[i].status) {
            printf(" %d %.4s", i + 1, (const char *)x->airports[i].icao);
            count++;
        }
    puts(count == 0 ? " none" : "");
}

static void json_sheet(const origin *from, const esk_sheet *x)
{
    json_object(NULL);
    json_bool("accepted", 1);
    json_origin(from);
    json_number("code", ESK_ACCEPTED);
    json_text("designator", x->designator, sizeof x->designator);
    json_bool("ascent", x->ascent);
    json_number("ascent_interval1_hpa", x->ascent_interval1);
    json_number("ascent_interval2_hpa", x->ascent_interval2);
    json_bool("level", x->level);
    json_number("level_interval_seconds", x->level_interval);
    json_bool("descent", x->descent);
    json_number("descent_interval1_hpa", x->descent_interval1);
    json_number("descent_interval2_hpa", x->descent_interval2);
    json_number("trigger1_hpa", x->trigger1);
    json_number("trigger2_hpa", x->trigger2);
    json_number("observations", x->observations);
    json_word("smoothing", smoothings[x->smoothing]);
    json_number("profile_constant", x->profile_constant);
    json_number("cruise_constant", x->cruise_constant);
    json_number("gust_constant", x->gust_constant);
    json_number("instant_constant", x->instant_constant);
    json_list("boxes");
    for (int i = 0; i < BOXES; i++) {
        json_object(NULL);
        json_number("latitude1_minutes", x->boxes[i].latitude1);
        json_number("longitude1_minutes", x->boxes[i].longitude1);
        json_number("latitude2_minutes", x->boxes[i].latitude2);
        json_number("longitude2_minutes", x->boxes[i].longitude2);
        json_bool("active", x->boxes[i].status);
        json_close();
    }
    json_close();
    json_list("airports");
    for (int i = 0; i < AIRPORTS; i++) {
        json_object(NULL);
        json_number("number", i + 1);
        json_text("icao", x->airports[i].icao, sizeof x->airports[i].icao);
        json_bool("active", x->airports[i].status);
        json_close();
    }
    json_close();
    json_close();
}

/* A file is one sheet. A byte more than a sheet's is enough to see that there are more. */
static int one_sheet(const char *word)
{
    int is_stdin = strcmp(word, "-") == 0;
    const char *name = is_stdin ? "standard input" : word;
    FILE *file = is_stdin ? stdin : fopen(word, "rb");
    uint8_t text[SHEET_BYTES + 1];
    if (file == NULL)
        return failed(name, "open");
    size_t length = fread(text, 1, sizeof text, file);
    int wrong = ferror(file);
    if (!is_stdin)
        fclose(file);
    if (wrong)
        return failed(name, "read");
    origin from = {word, "sheet", 0, 0};
    esk_sheet_got got = esk_sheet_read(text, length);
    if (got.answer.code != ESK_ACCEPTED)
        return refuse(&from, A_SHEET, got.answer, text, length, length);
    if (as_json)
        json_sheet(&from, &got.sheet);
    else
        say_sheet(&got.sheet);
    return FINE;
}

static int run(int count, char **words)
{
    int status = take_options(&count, words, NULL, 0);
    if (status != FINE)
        return status;
    if (count == 0)
        return trouble(NULL, "no file; --help tells what to give");
    for (int i = 0; i < count; i++)
        status = worse(status, one_sheet(words[i]));
    return status;
}

const subcommand status_subcommand = {
    "status",
    "FILE | - ..",
    "Shows status sheets",
    "  FILE         a status sheet, AMDARSTATUS3, 913 bytes; - is standard input\n"
    "\n"
    "Intervals and trigger levels are shown with their units, boxes in degrees and\n"
    "minutes, and of the airports those that are on.\n",
    run,
    0,
};
