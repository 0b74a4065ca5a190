/* track.h: reports as tracks: where and when each observation was made, as a table, for map programs, and as a picture. */
#ifndef DESK_TRACK_H
#define DESK_TRACK_H

#include "columns.h"

enum { POINTS = 8 };

/* An accepted report, and where it stands. */
typedef struct followed {
    const char *file;
    unsigned long number; /* in its file, from 1 */
    unsigned long long offset;
    esk_report report;
    esk_track track;
} followed;

/* An observation by its number, from 0. */
const esk_observation *observation_of(const followed *f, uint32_t index);

/* How many points, from the first on, have both latitude and longitude: those behind them have not. */
uint32_t located(const followed *f);

/* Minutes from one longitude to the next, the shorter way round: below zero westward. */
int32_t eastward(int32_t from, int32_t to);

/* An observation as a row of the table of columns. */
row followed_row(const followed *f, uint32_t index);

/* GeoJSON (RFC 7946): a collection of a line for each report, cut at the antimeridian, and a point for each observation. */
void geo_begin(void);
void geo_track(const followed *f);
void geo_end(void);

/* A picture (SVG) of all that it was handed, and what it gives as a status: told where the file cannot be written. */
int picture_add(const followed *f);
int picture_write(const char *file);

#endif
