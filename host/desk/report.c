/* eskelvor report: reports shown, figure by figure. */
#include "options.h"
#include "report_form.h"
#include "reports_in.h"

static report_form form;
static unsigned long shown, refused;

static int one_report(const piece *p, const char *file)
{
    esk_report_got got = esk_report_read(p->bytes, p->length);
    if (got.answer.code == ESK_ACCEPTED) {
        shown++;
        form_report(&form, p, file, &got.report);
        return FINE;
    }
    refused++;
    return form.quiet ? REFUSED : refuse_report(p, file, got.answer);
}

static int read_all(int count, char **words)
{
    int status = each_report(count, words, one_report);
    form_end(&form, refused);
    if (refused > 0 && !as_json && !form.quiet && shown + refused > 1)
        fprintf(stderr, "eskelvor: %lu reports %s, %lu refused\n", shown, form.count ? "counted" : "shown", refused);
    return status;
}

static int run(int count, char **words)
{
    const option known[] = {SET_OPTION("--jsonl", &form.jsonl), SET_OPTION("--csv", &form.csv),
                            VALUE_OPTION("--fields", NULL, &form.fields), SET_OPTION("--count", &form.count),
                            SET_OPTION("--quiet", &form.quiet)};
    int status = take_options(&count, words, known, OPTIONS(known));
    if (status == FINE)
        status = form_begin(&form);
    return status == FINE ? read_all(count, words) : status;
}

const subcommand report_subcommand = {
    "report",
    "[--jsonl | --csv | --count | --quiet] [--fields NAME,..]\n"
    "           [FILE | -]..",
    "Shows reports, figure by figure",
    "  FILE         a file of reports; - or no word is standard input\n"
    "  --jsonl      a JSON object for each report, on a line of its own, as it is read\n"
    "  --csv        a table: a line of names, then a row for each observation\n"
    "  --fields NAME,..\n"
    "               these columns alone, in this order, for --csv and for --jsonl,\n"
    "               whose objects are then one for each observation: file, report,\n"
    "               offset, departure, arrival, designator, observation, kind,\n"
    "               kind_in_words, latitude_change_minutes,\n"
    "               longitude_change_minutes, time_since_seconds, latitude_minutes,\n"
    "               latitude_degrees (or lat), longitude_minutes, longitude_degrees\n"
    "               (or lon), seconds_into_month, day, time, altitude_feet (or\n"
    "               altitude), temperature_celsius (or temperature),\n"
    "               wind_direction_degrees (or wind_direction), wind_speed_knots (or\n"
    "               wind_speed), gust_metres_per_second (or gust),\n"
    "               vapour_grams_per_kilogram (or vapour), quality\n"
    "  --count      the number of accepted reports alone\n"
    "  --quiet      nothing but the exit status; files that cannot be read are told\n"
    "\n"
    "A report has 220 bytes, its CR LF line ends among them. Reports stand one\n"
    "behind the other; CR and LF bytes between them are passed over. One that is\n"
    "refused is told with its number, its offset in the file and a mark under the\n"
    "byte, and the others are still shown. A report that has lost or gained some\n"
    "bytes ends where the next seems to begin.\n"
    "\n"
    "A missing figure is a dash; in a table it is empty, in JSON null. A later\n"
    "observation has changes since the one before; where and when that comes to is\n"
    "shown beside them, as long as every change up to it is given. Absent\n"
    "observations have no row.\n",
    run,
    0,
};
