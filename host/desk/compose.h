/* compose.h: commands and reports put together from JSON. */
#ifndef DESK_COMPOSE_H
#define DESK_COMPOSE_H

#include "eskelvor.h"
#include "json_in.h"

/* Reads every object of a file, - for standard input, and writes the text of each; gives the worst status. */
int compose_json(const char *file);

/* The list of a report's observations, into its record. */
int read_observations(json_in *in, esk_report *to);

/* Writes a report by the proved writer; gives a status, and tells a refusal. */
int write_report(const esk_report *r, const char *where, uint8_t out[ESK_REPORT_BYTES]);

/* Tells what was written: the bytes themselves, a command's with a line end, or a result of the document. */
void tell_composed(const uint8_t *text, size_t length, int is_report);

#endif
