#include "joining.h"

#include <string.h>

int join_text(void *with, const command_text *t)
{
    joined *all = with;
    uint8_t out[ESK_COMMAND_BYTES];
    esk_answer a;
    if (all->texts == 0)
        a = esk_command_check(t->bytes, t->length);
    else
        a = esk_join(all->text, all->length, t->bytes, t->length, out, sizeof out);
    if (a.code != ESK_ACCEPTED)
        return refuse(&t->from, A_COMMAND, a, t->bytes, t->length, t->whole);
    all->length = all->texts == 0 ? t->length : a.length;
    memcpy(all->text, all->texts == 0 ? t->bytes : out, all->length);
    all->texts++;
    return FINE;
}

int gather(intake *in, int count, char **words, joined *all)
{
    in->stop = 1;
    in->with = all;
    if (in->each == NULL)
        in->each = join_text;
    return each_text(in, count, words);
}

int apply_gathered(const joined *all, esk_settings *settings, const char *about)
{
    if (all->texts == 0)
        return FINE;
    esk_applied done = esk_apply(settings, all->text, all->length);
    return done.code == ESK_ACCEPTED ? FINE : refuse_plain(about, A_SETTINGS, done.code, NULL);
}
