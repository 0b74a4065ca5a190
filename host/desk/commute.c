/* eskelvor commute: which commands may be sent either way round, and what stands against it. */
#include "intake.h"
#include "json.h"
#include "options.h"
#include "settings.h"

#include <stdio.h>
#include <stdlib.h>
#include <string.h>

/* The commands so far, each accepted by itself. */
typedef struct gathered {
    struct kept {
        char name[200]; /* where it came from */
        uint8_t text[ESK_COMMAND_BYTES];
        size_t length;
    } *all;
    size_t count, room;
} gathered;

static int keep_text(void *with, const command_text *t)
{
    gathered *g = with;
    esk_answer a = esk_command_check(t->bytes, t->length);
    if (a.code != ESK_ACCEPTED)
        return refuse(&t->from, A_COMMAND, a, t->bytes, t->length, t->whole);
    if (g->count == g->room) {
        size_t room = 2 * g->room + 2;
        struct kept *more = realloc(g->all, room * sizeof *more);
        if (more == NULL)
            return trouble(NULL, "no memory for %lu commands", (unsigned long)room);
        g->all = more;
        g->room = room;
    }
    struct kept *k = &g->all[g->count++];
    name_origin(&t->from, k->name, sizeof k->name);
    memcpy(k->text, t->bytes, t->length);
    k->length = t->length;
    return FINE;
}

/* "flag AMDAR, flag regions and section 4 (level flight)" */
static void say_items(const esk_commute_answer *a)
{
    int left = 0, said = 0;
    for (int i = 0; i < 8; i++)
        left += (a->flags >> i & 1) + (a->sections >> i & 1);
    for (int i = 0; i < FLAGS; i++)
        if (a->flags >> i & 1) {
            left--;
            printf("%sflag %s", said++ == 0 ? "" : left > 0 ? ", " : " and ", flag_names[i]);
        }
    for (int k = 2; k <= 9; k++)
        if (a->sections >> (k - 2) & 1) {
            left--;
            printf("%ssection %d (%s)", said++ == 0 ? "" : left > 0 ? ", " : " and ", k, section_title(k));
        }
}

static void say_two(const esk_commute_answer *a)
{
    if (a->yes) {
        puts("either way round");
        return;
    }
    printf("the order counts: both set ");
    say_items(a);
    puts(", and differently");
}

/* Of more than two, each against all before it. */
static void say_pair(const gathered *g, size_t before, size_t then, const esk_commute_answer *a)
{
    printf("%s %s before %s", g->all[then].name, a->yes ? "may be moved" : "may not be moved", g->all[before].name);
    if (!a->yes) {
        printf(": both set ");
        say_items(a);
        printf(", and differently");
    }
    putchar('\n');
}

static void json_pair(const gathered *g, size_t before, size_t then, const esk_commute_answer *a)
{
    json_object(NULL);
    json_bool("accepted", 1);
    json_number("code", ESK_ACCEPTED);
    json_number("first", (long long)before + 1);
    json_number("second", (long long)then + 1);
    json_word("first_from", g->all[before].name);
    json_word("second_from", g->all[then].name);
    json_bool("either_way", a->yes);
    json_list("flags");
    for (int i = 0; i < FLAGS; i++)
        if (a->flags >> i & 1)
            json_word(NULL, flag_names[i]);
    json_close();
    json_list("sections");
    for (int k = 2; k <= 9; k++)
        if (a->sections >> (k - 2) & 1)
            json_number(NULL, k);
    json_close();
    json_close();
}

/* Tells of each pair; gives whether every one may be sent either way round. */
static int tell_pairs(const gathered *g)
{
    int all = 1;
    for (size_t then = 1; then < g->count; then++)
        for (size_t before = 0; before < then; before++) {
            const struct kept *p = &g->all[before], *q = &g->all[then];
            esk_commute_answer a = esk_commute(p->text, p->length, q->text, q->length);
            all &= a.yes;
            if (as_json)
                json_pair(g, before, then, &a);
            else if (g->count == 2)
                say_two(&a);
            else
                say_pair(g, before, then, &a);
        }
    return all;
}

static int run(int count, char **words)
{
    gathered g = {NULL, 0, 0};
    int by_status = 0;
    intake in = {0, 0, 1, keep_text, &g};
    const option known[] = {SET_OPTION("--text", &in.typed), SET_OPTION("--exact", &in.exact),
                            SET_OPTION("--exit-code", &by_status)};
    int status = take_options(&count, words, known, OPTIONS(known));
    if (status == FINE && count == 0)
        status = trouble(NULL, "no command; --help tells what to give");
    if (status == FINE)
        status = each_text(&in, count, words);
    if (status == FINE && g.count < 2)
        status = trouble(NULL, "one command alone; give two or more");
    if (status == FINE && !tell_pairs(&g) && by_status)
        status = REFUSED;
    free(g.all);
    return status;
}

const subcommand commute_subcommand = {
    "commute",
    "[--exit-code] [--text | --exact] COMMAND | FILE | - ..",
    "Says which commands may be sent either way round",
    "  COMMAND      a word that begins with AWR\n"
    "  FILE         any other word: a file with a command on each line; - is\n"
    "               standard input\n"
    "  --exit-code  exit status 1 also where the order of some two counts\n"
    "  --text       every word is a command, whatever it begins with\n"
    "  --exact      all the bytes of a file are one command, line ends too\n"
    "\n"
    "Two commands may be sent either way round where both orders give the same\n"
    "configuration, whatever the aircraft has: each flag and section that both set\n"
    "has the same contents in both. Otherwise those that both set differently are\n"
    "named. Of more than two, each is told against every one before it.\n",
    run,
    0,
};
