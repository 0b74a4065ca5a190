/* eskelvor apply: commands applied to a configuration, and what that changes. */
#include "changes.h"
#include "config_file.h"
#include "joining.h"
#include "json.h"
#include "options.h"
#include "settings.h"

#include <stdio.h>
#include <stdlib.h>
#include <string.h>
#include <unistd.h>

/* A text that was accepted, held until all are applied: where one is refused, none is told as accepted. */
typedef struct heard {
    struct heard *next;
    origin from;
    size_t length;
    uint8_t bytes[];
} heard;

/* What is to be applied. `all` stands first: gathering hands its address to the taker. */
typedef struct orders {
    joined all;
    heard *first, *last;
} orders;

/* A text_taker: joins the text, and holds it to be told. */
static int join_and_hold(void *with, const command_text *t)
{
    orders *o = with;
    if (join_text(&o->all, t) != FINE)
        return REFUSED;
    heard *h = malloc(sizeof *h + t->length);
    if (h == NULL)
        return trouble(NULL, "no memory for so many commands");
    h->next = NULL;
    h->from = t->from;
    h->length = t->length;
    memcpy(h->bytes, t->bytes, t->length);
    if (o->last == NULL)
        o->first = h;
    else
        o->last->next = h;
    o->last = h;
    return FINE;
}

/* Tells that a text was accepted, and what it asks to be sent down. */
static void tell_heard(const heard *h)
{
    char name[1200];
    uint8_t downlink = esk_command_read(h->bytes, h->length).command.downlink;
    if (as_json) {
        json_object(NULL);
        json_bool("accepted", 1);
        json_origin(&h->from);
        json_number("code", ESK_ACCEPTED);
        json_number("downlink", downlink);
        json_text("text", h->bytes, h->length);
        json_close();
        return;
    }
    name_origin(&h->from, name, sizeof name);
    printf("%s: accepted; downlink %d, %s\n", name, downlink, downlink_in_words(downlink));
}

/* Tells of all the texts that were held, and lets them go. */
static void tell_and_free(heard *h)
{
    while (h != NULL) {
        heard *next = h->next;
        tell_heard(h);
        free(h);
        h = next;
    }
}

/* What changed, and the configuration that is then held. */
static void tell_changes(const esk_settings *old, const esk_settings *now)
{
    if (!as_json) {
        say_changes(old, now);
        return;
    }
    json_object(NULL);
    json_bool("accepted", 1);
    json_number("code", ESK_ACCEPTED);
    json_changes(old, now);
    json_configuration(now);
    json_close();
}

/* Reads, applies, and writes where a file is held for it; what was accepted and what changed is told once it is on
 * disk. What began after reset never takes the place of a file. */
static int apply_all(const orders *o, const char *from, kept *out)
{
    esk_settings old, now;
    int status = config_read(from, &old);
    if (status != FINE)
        return status;
    now = old;
    status = apply_gathered(&o->all, &now, from);
    if (out != NULL && status == FINE)
        status = config_write(out, &now);
    if (out != NULL && status == FINE)
        status = from == NULL ? keep_create(out) : keep_replace(out);
    if (status != FINE)
        return status;
    tell_and_free(o->first);
    if (o->all.texts > 0 || as_json)
        tell_changes(&old, &now);
    else
        say_configuration(&now);
    return FINE;
}

/* Whether the new configuration may be kept there. One that begins after reset would lose all that the file holds. */
static int may_keep(const char *from, const char *to)
{
    if (strcmp(to, "-") == 0)
        return trouble("--out", "a configuration is kept in a file, and - is none; --json shows it on standard output");
    int status = config_may_replace(to);
    if (status == FINE && from == NULL && access(to, F_OK) == 0)
        return trouble(to, "there is a configuration in it already; -c %s changes it", to);
    return status;
}

/* The same under the lock of the file that is written, once what is there has been looked at: what is no configuration
 * gets no lock file beside it, and is not replaced. */
static int apply_and_keep(const orders *o, const char *from, const char *to, long wait)
{
    esk_settings settings;
    kept k;
    int status = config_read(from, &settings);
    if (status == FINE)
        status = may_keep(from, to);
    if (status != FINE)
        return status;
    status = keep_hold(&k, to, wait);
    if (status == FINE)
        status = keep_may_replace(&k);
    if (status == FINE)
        status = apply_all(o, from, &k);
    keep_release(&k);
    return status;
}

static int run(int count, char **words)
{
    static orders o;
    const char *from = NULL, *to = NULL, *wait = "10";
    intake in = {0, 0, 0, join_and_hold, NULL};
    const option known[] = {VALUE_OPTION("--config", "-c", &from), VALUE_OPTION("--out", "-o", &to),
                            VALUE_OPTION("--wait", NULL, &wait), SET_OPTION("--text", &in.typed),
                            SET_OPTION("--exact", &in.exact)};
    if (take_options(&count, words, known, OPTIONS(known)) != FINE)
        return TROUBLE;
    if (whole_number(wait, 0, 86400) < 0)
        return trouble("--wait", "give whole seconds");
    int status = gather(&in, count, words, &o.all);
    if (status != FINE)
        return status;
    if (to == NULL)
        return apply_all(&o, from, NULL);
    return apply_and_keep(&o, from, to, whole_number(wait, 0, 86400));
}

const subcommand apply_subcommand = {
    "apply",
    "[-c FILE] [-o FILE] [COMMAND | FILE | - ]..",
    "Applies commands to a configuration and shows what changes",
    "  -c, --config FILE   the configuration to begin with; without it, the one\n"
    "                      after reset\n"
    "  -o, --out FILE      where the new configuration is kept; may be the same file.\n"
    "                      Without -c there must be no such file yet\n"
    "  --wait S            waits S seconds for another writer of that file (10)\n"
    "  --text, --exact     commands as for eskelvor check\n"
    "\n"
    "All the commands are applied, in order, or none, and are told as accepted once\n"
    "the new configuration is kept. Without a command the configuration is shown\n"
    "whole. The new file is flushed to disk and put in place\n"
    "whole. A damaged file is refused with code 12, and never mended.\n",
    run,
    0,
};
