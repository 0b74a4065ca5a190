#include "reports_in.h"

#include "places.h"
#include "progress.h"

#include <string.h>

/* Whether line ends have lost their CR, as they do on the way through a text editor. */
static int lacks_cr(const piece *p, size_t length)
{
    int lost = 0;
    for (size_t i = 0; i < length; i++)
        lost |= p->bytes[i] == '\n' && (i == 0 || p->bytes[i - 1] != '\r');
    return lost;
}

/* Where the bytes of a piece first depart from a report's; the bytes that it lacks are taken to be 0. */
static esk_answer first_departure(const piece *p, size_t length)
{
    uint8_t padded[ESK_REPORT_BYTES] = {0};
    memcpy(padded, p->bytes, length);
    return esk_report_check(padded, sizeof padded);
}

/* Whether all that a short piece has is as in a report: it departs from one in a field that it does not have whole. An
 * absent observation, solidi from its first byte on, counts as one field. */
static int is_cut(const piece *p, size_t length, esk_answer first)
{
    size_t solidi = first.place;
    while (first.code == ESK_DISAGREE && solidi < length && p->bytes[solidi] == '/')
        solidi++;
    return length < ESK_REPORT_BYTES && report_field_end(first.place, solidi == length) > length;
}

/* The bytes of a short piece, without the line ends behind it that are none of a report's own. */
static size_t own_length(const piece *p, size_t length)
{
    size_t own = length, departs = first_departure(p, length).place;
    if (length == 0 || length == ESK_REPORT_BYTES || p->bytes[length - 1] != '\n')
        return length;
    while (own > departs && (p->bytes[own - 1] == '\n' || p->bytes[own - 1] == '\r'))
        own--;
    return own;
}

/* A piece that is refused for its length: cut short, or where its bytes first depart from a report's. */
static int refuse_length(const origin *from, const piece *p, esk_answer a)
{
    size_t length = p->length < ESK_REPORT_BYTES ? p->length : ESK_REPORT_BYTES;
    size_t own = own_length(p, length);
    esk_answer first = first_departure(p, own);
    int cut = is_cut(p, own, first);
    char because[80];
    snprintf(because, sizeof because, "cut short: %lu bytes of %d are there", (unsigned long)own, ESK_REPORT_BYTES);
    int status = refuse_because(from, A_REPORT, a, p->bytes, p->length, p->whole, cut ? because : NULL);
    if (as_json || cut)
        return status;
    if (lacks_cr(p, own))
        fputs("  its line ends are not CR LF\n", stderr);
    else if (first.code != ESK_ACCEPTED && first.place < length)
        fprintf(stderr, "  its bytes first depart from a report's at byte %lu\n", (unsigned long)first.place);
    return status;
}

int refuse_report(const piece *p, const char *file, esk_answer a)
{
    origin from = {file, "report", p->number, p->offset};
    if (a.code == ESK_LENGTH)
        return refuse_length(&from, p, a);
    return refuse(&from, A_REPORT, a, p->bytes, p->length, p->whole);
}

static int read_reports(const char *word, report_taker take)
{
    static pieces cut;
    piece p;
    int status = FINE, is_stdin = strcmp(word, "-") == 0;
    const char *name = is_stdin ? "standard input" : word;
    FILE *from = is_stdin ? stdin : fopen(word, "rb");
    if (from == NULL)
        return failed(name, "open");
    pieces_begin(&cut, from);
    while (next_piece(&cut, &p) && !ferror(stdout)) {
        status = worse(status, take(&p, word));
        progress("reports", p.number, p.offset);
    }
    progress_done();
    if (ferror(from))
        status = failed(name, "read");
    else if (cut.number == 0)
        status = trouble(name, "empty: there is no report in it");
    if (!is_stdin)
        fclose(from);
    return status;
}

int each_report(int count, char **words, report_taker take)
{
    static char standard_input[] = "-";
    int status = count == 0 ? read_reports(standard_input, take) : FINE;
    for (int i = 0; i < count; i++)
        status = worse(status, read_reports(words[i], take));
    return status;
}
