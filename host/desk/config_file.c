#include "config_file.h"

#include <errno.h>
#include <stdio.h>
#include <string.h>

/* What a version of the format has. */
typedef struct format {
    char head[26];
    uint8_t named[8]; /* the sections that its command names */
} format;

static const format present = {"ESKELVOR CONFIGURATION 2\n", {2, 3, 4, 5, 6, 7, 8, 9}};
static const format older = {"ESKELVOR CONFIGURATION 1\n", {2, 3, 4, 5, 6, 0, 8, 9}};

enum { HEAD = sizeof present.head - 1, NAME = HEAD - 2, TAIL = 9 };

size_t config_text(const esk_settings *settings, uint8_t *to)
{
    esk_command all = {.settings = *settings};
    memcpy(all.named, present.named, sizeof all.named);
    return esk_command_write(&all, to, ESK_COMMAND_BYTES).length;
}

/* The last line: the sum of the bytes before it. */
static void write_sum(const uint8_t *bytes, size_t length, char line[TAIL + 1])
{
    snprintf(line, TAIL + 1, "%08lx\n", (unsigned long)checksum(bytes, length));
}

size_t config_pack(const esk_settings *settings, uint8_t *to)
{
    char sum[TAIL + 1];
    memcpy(to, present.head, HEAD);
    size_t length = HEAD + config_text(settings, to + HEAD);
    to[length++] = '\n';
    write_sum(to, length, sum);
    memcpy(to + length, sum, TAIL);
    return length + TAIL;
}

/* A file of another version than the one that is wanted; NULL where it is not. */
static const char *version_fault(const uint8_t *bytes, size_t length, const format *f)
{
    if (length <= HEAD || memcmp(bytes, f->head, NAME) != 0 || memcmp(bytes, f->head, HEAD) == 0)
        return NULL;
    if (f == &present && memcmp(bytes, older.head, HEAD) == 0)
        return "a configuration's file of format version 1, from before section 7: it is carried over into a new one by "
               "eskelvor config OLD convert NEW";
    if (f == &older && memcmp(bytes, present.head, HEAD) == 0)
        return "a configuration's file of format version 2, which is read as it is; there is nothing to convert";
    return "a configuration's file of another format version; this program reads version 2";
}

static const char *frame_fault(const uint8_t *bytes, size_t length)
{
    char sum[TAIL + 1];
    if (length == 0)
        return "the file is empty";
    if (memcmp(bytes, present.head, length < NAME ? length : NAME) != 0)
        return "not a configuration's file: it does not begin with ESKELVOR CONFIGURATION";
    if (length < HEAD + 1 + TAIL)
        return "the file is cut short";
    write_sum(bytes, length - TAIL, sum);
    if (memcmp(bytes + length - TAIL, sum, TAIL) != 0)
        return "the file is cut or damaged: its last line is not the checksum of its bytes";
    return NULL;
}

static int unpack(esk_settings *settings, const uint8_t *bytes, size_t length, const format *f, const char **why)
{
    *why = version_fault(bytes, length, f);
    if (*why != NULL)
        return TROUBLE;
    *why = frame_fault(bytes, length);
    if (*why != NULL)
        return REFUSED;
    esk_command_got got = esk_command_read(bytes + HEAD, length - HEAD - 1 - TAIL);
    if (f == &older)
        got.command.settings.descent = esk_reset().descent;
    *why = "its command does not set every flag and section";
    if (got.answer.code != ESK_ACCEPTED || memcmp(got.command.named, f->named, sizeof f->named) != 0 ||
        esk_settings_valid(&got.command.settings).code != ESK_ACCEPTED)
        return REFUSED;
    *settings = got.command.settings;
    return FINE;
}

int config_unpack(esk_settings *settings, const uint8_t *bytes, size_t length, const char **why)
{
    return unpack(settings, bytes, length, &present, why);
}

int config_unpack_older(esk_settings *settings, const uint8_t *bytes, size_t length, const char **why)
{
    return unpack(settings, bytes, length, &older, why);
}

/* Reads a file by its version, and tells what is wrong with it. */
static int read_as(const format *f, const char *file, esk_settings *settings)
{
    static uint8_t bytes[CONFIG_MOST + 1];
    size_t length = 0;
    const char *why = NULL;
    if (keep_read(file, bytes, sizeof bytes, &length) != FINE)
        return TROUBLE;
    int status = unpack(settings, bytes, length, f, &why);
    if (status == TROUBLE)
        return trouble(file, "%s", why);
    return status == FINE ? FINE : refuse_plain(file, A_SETTINGS, ESK_SETTINGS, why);
}

int config_read(const char *file, esk_settings *settings)
{
    *settings = esk_reset();
    return file == NULL ? FINE : read_as(&present, file, settings);
}

int config_convert(const char *from, const char *to, esk_settings *settings, long wait)
{
    uint8_t packed[CONFIG_MOST];
    kept k;
    int status = read_as(&older, from, settings); /* what is no configuration gets no lock file beside it */
    if (status != FINE)
        return status;
    status = keep_hold(&k, from, wait);
    if (status == FINE)
        status = read_as(&older, from, settings);
    if (status == FINE)
        status = keep_new(to, packed, config_pack(settings, packed), from, wait);
    keep_release(&k);
    return status;
}

int config_may_replace(const char *file)
{
    uint8_t bytes[CONFIG_MOST + 1];
    esk_settings old;
    const char *why;
    FILE *from = fopen(file, "rb");
    if (from == NULL)
        return errno == ENOENT ? FINE : failed(file, "open");
    size_t length = fread(bytes, 1, sizeof bytes, from);
    int readable = !ferror(from);
    fclose(from);
    int status = readable ? config_unpack(&old, bytes, length, &why) : REFUSED;
    if (status != REFUSED)
        return status == FINE ? FINE : trouble(file, "%s", why);
    return trouble(file, "there is something else of this name; it is left as it is");
}

int config_write(kept *k, const esk_settings *settings)
{
    static uint8_t bytes[CONFIG_MOST];
    return keep_write(k, bytes, config_pack(settings, bytes));
}
