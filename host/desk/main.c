/*
 * eskelvor: the desk program, for a person at a terminal and for scripts, over the proved calls of eskelvor.h.
 *
 * Every verdict on a text, a board, a journal or a configuration is a proved call's. What is here reads words and files,
 * shows answers, and keeps boards, journals and configurations in files.
 */
#define _XOPEN_SOURCE 700
#include "desk.h"
#include "tell.h"

#include <fcntl.h>
#include <signal.h>
#include <stdio.h>
#include <string.h>
#include <unistd.h>

/* Takes a word out of the words before a --, wherever it stands; gives whether it was there. */
static int take_word(const char *word, int *count, char **words)
{
    int kept = 0, plain = 0, found = 0;
    for (int i = 0; i < *count; i++) {
        plain |= strcmp(words[i], "--") == 0;
        if (!plain && strcmp(words[i], word) == 0)
            found = 1;
        else
            words[kept++] = words[i];
    }
    *count = kept;
    return found;
}

/* Takes --json out of the words. Where the subcommand reads JSON, what stands behind its name is not looked at. */
static int take_json(int *count, char **words)
{
    int before = 0;
    while (before < *count && strcmp(words[before], "--json") == 0)
        before++;
    const subcommand *s = before < *count ? find_subcommand(words[before]) : NULL;
    if (s == NULL || !s->reads_json)
        return take_word("--json", count, words);
    memmove(words, words + before, (size_t)(*count - before) * sizeof *words);
    *count -= before;
    return before > 0;
}

static int run(int count, char **words)
{
    const subcommand *s = count == 0 ? NULL : find_subcommand(words[0]);
    int status;
    if (s == NULL) {
        tell_begin(count == 0 ? NULL : words[0]);
        if (count == 0)
            status = trouble(NULL, "no subcommand; eskelvor --help tells which there are");
        else
            status = trouble(words[0], "no such subcommand; eskelvor --help tells which there are");
        return tell_end(status);
    }
    if (s == &help_subcommand)
        as_json = 0; /* it is for a person, as --help is */
    tell_begin(s->name);
    status = s->run(count - 1, words + 1);
    return worse(status, tell_end(status));
}

/*
 * A standard descriptor that the caller closed is given to /dev/null: the next file that is opened would have its
 * number, and what is told would be written into that file. It is opened for the other direction, so that a write to a
 * closed output is still told as one that failed. Gives whether all three are held.
 */
static int hold_descriptors(void)
{
    for (int i = STDIN_FILENO; i <= STDERR_FILENO; i++)
        if (fcntl(i, F_GETFD) < 0 && open("/dev/null", i == STDIN_FILENO ? O_WRONLY : O_RDONLY) != i)
            return 0;
    return 1;
}

int main(int count, char **words)
{
    if (!hold_descriptors())
        return TROUBLE; /* there may be nowhere to tell it */
    count--;
    words++;
    signal(SIGXFSZ, SIG_IGN); /* a file that may not grow is told as a write that failed */
    int wants_help = take_word("--help", &count, words) | take_word("-h", &count, words);
    as_json = take_json(&count, words);
    if (!wants_help && (count != 1 || strcmp(words[0], "--version") != 0))
        return run(count, words);
    const subcommand *s = count == 0 ? NULL : find_subcommand(words[0]);
    if (!wants_help)
        puts("eskelvor " ESK_VERSION);
    else if (s != NULL)
        help_on(s);
    else
        help();
    return tell_end(FINE);
}
