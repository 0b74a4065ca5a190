/* The offices that share a board: their grants in a file beside it, and adding for one of them. */
#include "office.h"

#include "options.h"
#include "settings.h"

#include <stdio.h>
#include <string.h>
#include <unistd.h>

enum { LINE = OFFICE_NAME + 21, GRANTS_MOST = OFFICES * LINE };

static const char *const flag_words[7] = {"amdar", "hours", "regions", "airports", "ascent", "enroute", "descent"};

/* ---- The file ---- */

static int grants_file(const char *board_file, char *to, size_t room)
{
    int length = snprintf(to, room, "%s.grants", board_file);
    return length > 0 && (size_t)length < room ? FINE : trouble(board_file, "the name is too long");
}

static int is_name(const char *name, size_t length)
{
    if (length == 0 || length > OFFICE_NAME)
        return 0;
    for (size_t i = 0; i < length; i++)
        if (strchr("ABCDEFGHIJKLMNOPQRSTUVWXYZabcdefghijklmnopqrstuvwxyz0123456789-_", name[i]) == NULL || name[i] == 0)
            return 0;
    return 1;
}

/* As many digits 0 or 1 as there are bytes, and then `after`; gives what stands behind, or NULL. */
static const char *digits(const char *from, uint8_t *bytes, size_t count, char after)
{
    for (size_t i = 0; i < count; i++) {
        if (from[i] != '0' && from[i] != '1')
            return NULL;
        bytes[i] = (uint8_t)(from[i] - '0');
    }
    return from[count] == after ? from + count + 1 : NULL;
}

static const char *line(const char *from, struct office *to)
{
    const char *space = strchr(from, ' ');
    if (space == NULL || !is_name(from, (size_t)(space - from)))
        return NULL;
    memset(to->name, 0, sizeof to->name);
    memcpy(to->name, from, (size_t)(space - from));
    from = digits(space + 1, to->grant.flags, 7, ' ');
    from = from == NULL ? NULL : digits(from, &to->grant.downlinks, 1, ' ');
    return from == NULL ? NULL : digits(from, to->grant.sections, 8, '\n');
}

/* Whether two grants overlap: the call looks for that before all else, and an empty designator is refused with 4. */
static int overlap(const esk_grant *own, const esk_grant *other)
{
    return esk_office_add(NULL, 0, NULL, 0, NULL, 0, NULL, 0, *own, *other).code == ESK_NOT_GRANTED;
}

int offices_read(const char *board_file, offices *all)
{
    static char bytes[GRANTS_MOST + 2];
    char file[PATH_ROOM];
    size_t length = 0;
    all->count = 0;
    if (grants_file(board_file, file, sizeof file) != FINE)
        return TROUBLE;
    if (access(file, F_OK) != 0)
        return FINE;
    if (keep_read(file, (uint8_t *)bytes, sizeof bytes - 1, &length) != FINE)
        return TROUBLE;
    bytes[length] = 0;
    const char *from = bytes;
    while (from != NULL && *from != 0 && all->count < OFFICES)
        from = line(from, &all->each[all->count++]);
    if (from == NULL || from != bytes + length)
        return trouble(file, "no grants of at most two offices: each line is a name, 7 digits, 1 digit and 8 digits, 0 or 1");
    if (all->count == OFFICES && strcmp(all->each[0].name, all->each[1].name) == 0)
        return trouble(file, "%s has two grants", all->each[0].name);
    if (all->count == OFFICES && overlap(&all->each[0].grant, &all->each[1].grant))
        return refuse_plain(file, A_BOARD, ESK_NOT_GRANTED, "the two grants overlap");
    return FINE;
}

static size_t pack(const offices *all, char *to)
{
    size_t length = 0;
    for (size_t i = 0; i < all->count; i++) {
        const esk_grant *g = &all->each[i].grant;
        length += (size_t)sprintf(to + length, "%s ", all->each[i].name);
        for (int j = 0; j < 7; j++)
            to[length++] = g->flags[j] ? '1' : '0';
        length += (size_t)sprintf(to + length, " %c ", g->downlinks ? '1' : '0');
        for (int j = 0; j < 8; j++)
            to[length++] = g->sections[j] ? '1' : '0';
        to[length++] = '\n';
    }
    return length;
}

static struct office *find(const offices *all, const char *name)
{
    for (size_t i = 0; i < all->count; i++)
        if (strcmp(all->each[i].name, name) == 0)
            return (struct office *)&all->each[i];
    return NULL;
}

/* The file may be there or not; it is held meanwhile. */
static int replace(const char *file, const offices *all, kept *k)
{
    char bytes[GRANTS_MOST + 2];
    size_t length = pack(all, bytes);
    int there = access(file, F_OK) == 0, status = there ? keep_may_replace(k) : FINE;
    if (status == FINE)
        status = keep_write(k, (const uint8_t *)bytes, length);
    if (status == FINE)
        status = there ? keep_replace(k) : keep_create(k);
    return status;
}

int offices_grant(const char *board_file, const char *name, const esk_grant *grant, offices *all, long wait)
{
    static board b;
    char file[PATH_ROOM];
    kept k;
    if (!is_name(name, strlen(name)))
        return trouble("grant", "an office's name is 1 to %d letters, digits, - and _", OFFICE_NAME);
    int status = grants_file(board_file, file, sizeof file);
    if (status == FINE)
        status = board_read(board_file, &b); /* what is no sound board gets no grants */
    if (status != FINE)
        return status;
    status = keep_hold(&k, file, wait);
    if (status == FINE)
        status = offices_read(board_file, all);
    struct office *office = status == FINE ? find(all, name) : NULL;
    if (status == FINE && office == NULL && all->count == OFFICES)
        status = trouble("grant", "%s and %s share the board; there is no third office", all->each[0].name, all->each[1].name);
    if (status == FINE) {
        office = office == NULL ? &all->each[all->count++] : office;
        memset(office->name, 0, sizeof office->name);
        strcpy(office->name, name);
        office->grant = *grant;
        if (all->count == OFFICES && overlap(&all->each[0].grant, &all->each[1].grant))
            status = refuse_plain(name, A_BOARD, ESK_NOT_GRANTED, "the other office has some of that");
    }
    if (status == FINE)
        status = replace(file, all, &k);
    keep_release(&k);
    return status;
}

/* ---- Words ---- */

/* Sets the bytes that a list of words names; `words` has the names, or NULL: numbers from 2 on. */
static int set_each(const char *option, const char *list, const char *const *words, size_t count, uint8_t *bytes)
{
    while (list != NULL && *list != 0) {
        size_t length = strcspn(list, ","), i = 0;
        for (; i < count; i++) {
            char number[2] = {(char)('2' + i), 0};
            const char *word = words == NULL ? number : words[i];
            if (strlen(word) == length && strncmp(word, list, length) == 0)
                break;
        }
        if (i == count)
            return trouble(option, "%.*s is none; give %s", (int)(length < 40 ? length : 40), list,
                           words == NULL ? "numbers 2 to 9, parted by commas"
                                         : "amdar, hours, regions, airports, ascent, enroute or descent, parted by commas");
        bytes[i] = 1;
        list += length + (list[length] == ',');
    }
    return FINE;
}

int grant_of(const char *flags, const char *sections, int downlinks, esk_grant *grant)
{
    memset(grant, 0, sizeof *grant);
    grant->downlinks = downlinks != 0;
    int status = set_each("--flags", flags, flag_words, 7, grant->flags);
    return status == FINE ? set_each("--sections", sections, NULL, 8, grant->sections) : status;
}

void grant_words(const esk_grant *g, char *to, size_t room)
{
    size_t length = 0;
    to[0] = 0;
    for (int i = 0; i < 7 && length < room; i++)
        if (g->flags[i])
            length += (size_t)snprintf(to + length, room - length, "%sflag %s", length ? ", " : "", flag_names[i]);
    for (int i = 0; i < 8 && length < room; i++)
        if (g->sections[i])
            length += (size_t)snprintf(to + length, room - length, "%ssection %d (%s)", length ? ", " : "", i + 2, section_title(i + 2));
    if (g->downlinks && length < room)
        length += (size_t)snprintf(to + length, room - length, "%sdownlinks", length ? ", " : "");
    if (length == 0)
        snprintf(to, room, "nothing");
}

/* ---- Adding ---- */

/* What an accepted command sets or asks for that a grant does not have. */
static esk_grant outside(const uint8_t *text, const esk_grant *own)
{
    esk_grant found;
    memset(&found, 0, sizeof found);
    for (int i = 0; i < 7; i++)
        found.flags[i] = text[5 + i] != '9' && !own->flags[i];
    found.downlinks = text[12] != '0' && !own->downlinks;
    for (int i = 0; i < 8; i++)
        found.sections[i] = text[13 + i] != '0' && !own->sections[i];
    return found;
}

int office_add(board *b, const offices *all, const char *office, const char *designator, const uint8_t *text, size_t length,
               size_t *waiting)
{
    static const esk_grant none;
    const struct office *own = find(all, office);
    if (own == NULL)
        return trouble("--office", "%s has no grant on this board; 'eskelvor board FILE grant' shows who has", office);
    const esk_grant *other = all->count < OFFICES ? &none : &all->each[own == &all->each[0]].grant;
    esk_answer a = esk_office_add(b->slots, b->n, b->area, b->n * ESK_COMMAND_BYTES, (const uint8_t *)designator,
                                  strlen(designator), text, length, own->grant, *other);
    *waiting = a.length;
    if (a.code == ESK_NOT_GRANTED) {
        char words[600], because[700];
        esk_grant found = outside(text, &own->grant);
        grant_words(&found, words, sizeof words);
        snprintf(because, sizeof because, "%s may not set %s", own->name, words);
        return refuse_plain(designator, A_BOARD, a.code, because);
    }
    return a.code == ESK_ACCEPTED ? FINE : refuse_plain(designator, A_BOARD, a.code, NULL);
}
