/*
 * What is put together from JSON, whatever the bytes: a document cut at every byte, and with every byte made several
 * others. Each gives a status, nothing but accepted texts is written, and a document that is cut is never taken for a
 * whole one.
 */
#define _XOPEN_SOURCE 700
#include "../../desk/compose.h"
#include "../../desk/tell.h"

#include <stdio.h>
#include <stdlib.h>
#include <string.h>
#include <unistd.h>

static unsigned long checks;

#define HOLD(what, why)                                                                          \
    do {                                                                                         \
        checks++;                                                                                \
        if (!(what)) {                                                                           \
            fprintf(told, "FAILED after %lu checks: %s: %s\n", checks, #what, why);              \
            exit(1);                                                                             \
        }                                                                                        \
    } while (0)

static FILE *told; /* standard error as it was */
static char folder[] = "/tmp/eskelvor-compose-XXXXXX";
static char from[64], to[64];

static const char command[] =
    "{\"accepted\":true,\"file\":null,\"command\":1,\"code\":0,\"length\":22,\"text\":\"AWR\\u0030\","
    "\"flags\":{\"amdar\":1,\"inhibit_hours\":9},\"downlink\":2,\"sections\":{\"2\":{\"reporting\":[{"
    "\"north\":\"10S\",\"south\":\"45S\",\"west\":\"110E\",\"east\":\"155E\"}],\"inhibiting\":[]},"
    "\"3\":{\"ascent_selected\":[\"YMML\"],\"descent_selected\":[],\"ascent_inhibited\":[],"
    "\"descent_inhibited\":[\"YPAD\",\"AB12\"],\"routine\":1},\"4\":{\"interval_minutes\":7,"
    "\"maximum_wind\":1},\"7\":{\"mode\":1,\"interval_seconds\":40,\"top_feet\":20000,\"list\":2,"
    "\"timer\":1},\"9\":{\"start_hour\":23,\"end_hour\":1}}}\n";

static const char written_command[] =
    "AWR041999999223400709/0110S45S110E155E00/01YMML000002YPADAB121/071/104020021/2301/\n";

static const char report[] =
    "{\"subcommand\":\"report\",\"results\":[\n{\"departure\":\"ABCD\",\"arrival\":\"EFGH\","
    "\"designator\":\"XY0001\",\"observations\":[{\"observation\":1,\"present\":true,\"kind\":\"A\","
    "\"latitude_minutes\":-12.0,\"longitude_minutes\":1e1,\"seconds_into_month\":0,\"altitude_feet\":-1000,"
    "\"temperature_celsius\":-27.5,\"wind_direction_degrees\":null,\"wind_speed_knots\":null,"
    "\"gust_metres_per_second\":0.1,\"vapour_grams_per_kilogram\":31.999,\"quality\":\"/\"}]}\n],"
    "\"status\":0}\n";

static const char written_report[] = "ABCDEFGH\r\nAMDAR3XY0001\r\nA  8  U    K HKD5//// L.../";

static char got[4000];
static size_t got_length;

/* Composes from these bytes. What was written is then in `got`. Files are made anew: one that is emptied may be flushed
 * to disk when it is closed, which takes long. */
static int compose(const char *bytes, size_t length)
{
    unlink(from);
    unlink(to);
    FILE *file = fopen(from, "wb");
    HOLD(file != NULL && fwrite(bytes, 1, length, file) == length && fclose(file) == 0, "a file");
    HOLD(freopen(to, "wb", stdout) != NULL, "standard output");
    int status = compose_json(from);
    HOLD(fflush(stdout) == 0, "flushed");
    file = fopen(to, "rb");
    HOLD(file != NULL, "what was written");
    got_length = fread(got, 1, sizeof got, file);
    fclose(file);
    return status;
}

/* Whether what was written is commands, a line each, or reports, all of them accepted. */
static int all_accepted(void)
{
    size_t at = 0;
    while (at < got_length) {
        const char *end = memchr(got + at, '\n', got_length - at);
        if (memcmp(got + at, "AWR04", 5) != 0) {
            if (got_length - at < ESK_REPORT_BYTES ||
                esk_report_check((const uint8_t *)got + at, ESK_REPORT_BYTES).code != ESK_ACCEPTED)
                return 0;
            at += ESK_REPORT_BYTES;
        } else {
            size_t length = end == NULL ? 0 : (size_t)(end - got) - at;
            if (end == NULL || esk_command_check((const uint8_t *)got + at, length).code != ESK_ACCEPTED)
                return 0;
            at += length + 1;
        }
    }
    return 1;
}

static void whole(void)
{
    HOLD(compose(command, sizeof command - 1) == FINE, "a whole command");
    HOLD(got_length == sizeof written_command - 1 && memcmp(got, written_command, got_length) == 0, "its bytes");
    HOLD(compose(report, sizeof report - 1) == FINE, "a whole report");
    HOLD(got_length == ESK_REPORT_BYTES && memcmp(got, written_report, sizeof written_report - 1) == 0, "its bytes");
    HOLD(all_accepted(), "which are accepted");
}

static void cut(const char *document, size_t length)
{
    for (size_t i = 0; i + 1 < length; i++) {
        HOLD(compose(document, i) == TROUBLE, "a document that is cut");
        HOLD(all_accepted(), "nothing but accepted texts is written");
    }
}

static void changed(const char *document, size_t length)
{
    static const char others[] = "\0\"\\{]:09-e.\n\xc3";
    static char bytes[2000];
    unsigned long by_status[3] = {0, 0, 0};
    memcpy(bytes, document, length);
    for (size_t i = 0; i < length; i++)
        for (size_t j = 0; j < sizeof others - 1; j++) {
            bytes[i] = others[j];
            int status = compose(bytes, length);
            HOLD(status >= FINE && status <= TROUBLE, "a status");
            HOLD(all_accepted(), "nothing but accepted texts is written");
            by_status[status]++;
            bytes[i] = document[i];
        }
    HOLD(by_status[FINE] > 0 && by_status[REFUSED] > 0 && by_status[TROUBLE] > 0, "each status comes up");
    fprintf(told, "test_compose: bytes changed: %lu accepted, %lu refused, %lu no such document\n", by_status[FINE],
            by_status[REFUSED], by_status[TROUBLE]);
}

int main(void)
{
    told = fdopen(dup(STDERR_FILENO), "w");
    HOLD(told != NULL && freopen("/dev/null", "w", stderr) != NULL && mkdtemp(folder) != NULL, "a folder");
    snprintf(from, sizeof from, "%s/from", folder);
    snprintf(to, sizeof to, "%s/to", folder);
    whole();
    cut(command, sizeof command - 1);
    cut(report, sizeof report - 1);
    changed(command, sizeof command - 1);
    changed(report, sizeof report - 1);
    HOLD(unlink(from) == 0 && unlink(to) == 0 && rmdir(folder) == 0, "nothing else is left");
    fprintf(told, "test_compose: %lu checks hold\n", checks);
    return 0;
}
