#define _POSIX_C_SOURCE 200809L
#include "load.h"

#include <stdint.h>
#include <stdio.h>
#include <stdlib.h>
#include <string.h>
#include <time.h>
#include <unistd.h>

static uint64_t state;
static int to_log = -1;

void die(const char *what, const char *why)
{
    fprintf(stderr, "load: %s: %s\n", what, why);
    exit(2);
}

/* xorshift64* */
static uint32_t draw(uint32_t below)
{
    state ^= state >> 12;
    state ^= state << 25;
    state ^= state >> 27;
    return (uint32_t)((state * 2685821657736338717ULL) >> 32) % below;
}

/* ---- commands ------------------------------------------------------------------------------------------------------ */

static char **commands;
static uint32_t commands_count;

static void read_commands(const char *file)
{
    char line[ANSWER_ROOM];
    FILE *from = fopen(file, "r");
    if (from == NULL)
        die(file, "cannot be opened");
    while (fgets(line, sizeof line, from) != NULL) {
        line[strcspn(line, "\n")] = 0;
        commands = realloc(commands, (commands_count + 1) * sizeof *commands);
        if (commands == NULL || (commands[commands_count++] = strdup(line)) == NULL)
            die(file, "no memory");
    }
    fclose(from);
    if (commands_count == 0)
        die(file, "no command in it");
}

/* ---- the log: each line is out of this program before the next thing is done, so that a kill loses none of it */

static void note(const char *line)
{
    size_t length = strlen(line);
    if (to_log >= 0 && write(to_log, line, length) != (ssize_t)length)
        die("log", "cannot be written");
}

static void note_sent(const step *s)
{
    char line[2 * ANSWER_ROOM];
    if (s->command != NULL)
        snprintf(line, sizeof line, "sent %d %ld add %s %s\n", s->client, s->number, s->designator, s->command);
    else
        snprintf(line, sizeof line, "sent %d %ld take %s\n", s->client, s->number, s->designator);
    note(line);
}

static void note_refused(const step *s)
{
    char line[ANSWER_ROOM];
    unsigned code, place;
    const char *words = strstr(s->text, "code ");
    if (words == NULL || sscanf(words, "code %u at byte %u", &code, &place) != 2)
        die("a refusal without a code", s->text);
    snprintf(line, sizeof line, "refused %d %ld %u %u\n", s->client, s->number, code, place);
    note(line);
}

static void note_outcome(const step *s, outcome o)
{
    char line[2 * ANSWER_ROOM];
    if (o == DONE)
        snprintf(line, sizeof line, "done %d %ld %lld %s\n", s->client, s->number, s->committed, s->text);
    else if (o == NOTHING_WAITED)
        snprintf(line, sizeof line, "none %d %ld\n", s->client, s->number);
    if (o == REFUSED)
        note_refused(s);
    else if (o != DOUBTED)
        note(line);
}

/* ---- the client ---------------------------------------------------------------------------------------------------- */

static unsigned long outcomes[AGAIN + 1];

static void one_step(int client, long number, uint32_t aircraft)
{
    static step s;
    char designator[16];
    outcome o;
    snprintf(designator, sizeof designator, "FL%04u", (unsigned)draw(aircraft));
    s.client = client;
    s.number = number;
    s.designator = designator;
    s.command = draw(4) == 0 ? NULL : commands[draw(commands_count)];
    note_sent(&s);
    while ((o = engine_run(&s)) == AGAIN)
        outcomes[AGAIN]++;
    outcomes[o]++;
    note_outcome(&s, o);
}

static double now(void)
{
    struct timespec t;
    clock_gettime(CLOCK_MONOTONIC, &t);
    return (double)t.tv_sec + (double)t.tv_nsec / 1e9;
}

int main(int count, char **words)
{
    char stop[4200];
    if (count != 9)
        die("usage", "load_ENGINE DATABASE COMMANDS LOG CLIENT STEPS AIRCRAFT SEED STATEMENTS");
    int client = atoi(words[4]);
    long steps = atol(words[5]), number = 0;
    state = (uint64_t)atol(words[7]) * 2654435761u + (uint64_t)client * 40503u + 1;
    read_commands(words[2]);
    if (strcmp(words[3], "-") != 0) {
        FILE *log = fopen(words[3], "w");
        if (log == NULL)
            die(words[3], "cannot be written");
        to_log = fileno(log);
    }
    snprintf(stop, sizeof stop, "%s.stop", words[3]);
    engine_open(words[1], words[8]);
    double began = now();
    while (steps > 0 ? number < steps : access(stop, F_OK) != 0)
        one_step(client, ++number, (uint32_t)atol(words[6]));
    double took = now() - began;
    engine_close();
    printf("client %d: %ld steps in %.3f s, %.3f s of processor: %lu done, %lu found nothing, %lu refused, %lu in doubt, %lu sent again\n", client,
           number, took, (double)clock() / CLOCKS_PER_SEC, outcomes[DONE], outcomes[NOTHING_WAITED], outcomes[REFUSED], outcomes[DOUBTED], outcomes[AGAIN]);
    return 0;
}
