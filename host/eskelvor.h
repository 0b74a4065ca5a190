/*
 * eskelvor.h: the proved core of a weather desk, for programs in C and C++.
 *
 * Every call takes any bytes at all and answers. It keeps nothing between calls, allocates nothing, and may be
 * called from several threads as long as no two of them lend it the same memory for writing.
 *
 * A byte string is a pointer and a length. NULL with length 0 is the empty string; any other pointer is to so many
 * bytes that may be read, or written where the call writes. What is lent for writing must not overlap anything else
 * lent to the same call. Nothing is kept of what was lent once the call is back.
 *
 * A refusal leaves all lent memory byte for byte as it was, and carries a code, a place and nothing else. Success
 * writes exactly the text; bytes beyond it stay.
 *
 * Of each call is said what is lent, and every code that it answers besides 0, in the order in which they are looked
 * for, with the place. Checks of a text go on from field to field, left to right; the first that fails is the answer.
 *
 * The two texts, the report and the command, are laid out below, each before its calls, field by field. Their bytes are
 * ASCII, and no text ends with a NUL. Places count from 0.
 *
 * Every call is proved but the four of the last part, which say in words what a number means and of which version the
 * library is.
 */
#ifndef ESKELVOR_H
#define ESKELVOR_H

#include <stddef.h>
#include <stdint.h>

/* 3.0.0: a record has one form for a missing figure and an absent observation, and another is refused with 7;
 * esk_settings_valid answers 0 or 12 and esk_decide a place, as all other calls do; esk_command has no padding.
 * 3.1.0: esk_explain.
 * 3.2.0: esk_words, esk_reason_words, esk_version and esk_size_of; a shared library, libeskelvor.so.3.
 * 3.3.0: the journal, six calls and code 14.
 * 3.4.0: code 4 in a packed field points at the byte that is wrong, no longer at the field's first.
 * 3.5.0: a box may go over 180 degrees, and 7 is not given for longitudes; 180E and 180W hold the same positions.
 * 4.0.0: section 7, descent: esk_descent in esk_settings; a command has up to 845 bytes, and a board as many a slot;
 * libeskelvor.so.4.
 * 4.1.0: esk_section, and esk_part_of over its answer.
 * 4.2.0: esk_commute.
 * 4.3.0: esk_gust.
 * 4.4.0: esk_difference.
 * 4.5.0: esk_report_track.
 * 4.6.0: esk_office_add, and code 13.
 * 4.7.0: the status sheet: esk_sheet_check, esk_sheet_read, esk_sheet_write.
 * 4.8.0: the list of a board's used slots: esk_tails_make, esk_tails_find, esk_tails_add, esk_tails_take. */
#define ESK_VERSION "4.8.0"

#ifdef __cplusplus
extern "C" {
#endif

/* ---- the numbers that come back ------------------------------------------------------------------------------ */

/*
 * A field is what one code and one place speak of: a number, a byte by itself such as a flag, an airfield, an edge and
 * its letter, or a fixed group (AWR04, AMDAR3, a CR LF, one delimiter). Within a field 8 is looked for first, then 3 or
 * 4, then 6, then 5; 7 comes at the last field of those that disagree, after that field's own checks. A record that is
 * to be written is checked as its text would be, with the place where the field would stand, and the room after that.
 */
enum {
    ESK_ACCEPTED = 0,  /* accepted; place 0 */
    ESK_LENGTH = 1,    /* report not 220 bytes; command over 845 bytes; packed field not 1 to 5 bytes; place 0. Looked
                          for before any byte is; a command that is too short is 8 */
    ESK_ROOM = 2,      /* output buffer shorter than the text to be written, or a journal without room for the entry; place
                          0. Looked for last */
    ESK_FIXED = 3,     /* a fixed byte is wrong (AWR04, AMDAR3, CR LF, a delimiter); place: the group's first byte */
    ESK_BYTE = 4,      /* a byte not allowed in its field: another letter, a digit that is no flag, a non-digit in a
                          number, a small letter in a name; place: the field's first byte, and 0 for a designator or
                          an airfield that is handed over by itself; in a packed field the byte from which on nothing
                          could mend it, see esk_packed_read */
    ESK_RANGE = 5,     /* number outside its range; place: the field's first byte, and 0 for what esk_section,
                          esk_decide, esk_explain, esk_journal_drop and esk_gust are asked */
    ESK_SPELLING = 6,  /* a number in a spelling other than its one spelling: a packed figure in more digits than it
                          needs, zero degrees spelt south or west; place: the field's first byte */
    ESK_DISAGREE = 7,  /* fields disagree: wind direction without speed, a present observation behind an absent one, a
                          box's north below its south; or a record's member is not of its one form; place: the first
                          byte of the last field of the group */
    ESK_END = 8,       /* command ends inside a field: place, the field's first byte; or has bytes after its last
                          delimiter: place, the first of them. Never for a report, whose length is fixed */
    ESK_NO_SLOT = 9,   /* adding: nothing waits for that aircraft and no slot is free; place 0. It is not accepted */
    ESK_BOARD = 10,    /* board not valid; place 0. The first thing that every call on a board looks for */
    ESK_NOTHING = 11,  /* taking: nothing waits for that aircraft; place 0 */
    ESK_SETTINGS = 12, /* configuration not valid; place 0. The first thing that every call on one looks for */
    ESK_NOT_GRANTED = 13, /* adding for an office: outside its grant, after the command's own refusals and before 9; or
                             grants that overlap, before all else; place 0 */
    ESK_JOURNAL = 14   /* journal broken; place: the trailer where reading it from its end first fails, or 0. The first
                          thing that every call on a journal looks for */
};

/* The answer of a call that checks or writes. 16 bytes, no padding. */
typedef struct esk_answer {
    size_t place;     /* offset of the byte that the code speaks of, from 0 */
    uint32_t length;  /* of the text written, or of a journal; 0 on refusal, and from a call that checks alone */
    uint8_t code;     /* ESK_.. above */
    uint8_t text;     /* for a join: which text is at fault, 1 or 2; else 0 */
    uint8_t spare[2]; /* 0 */
} esk_answer;

/* A figure, given or missing. 8 bytes, no padding. It has one form: given is 1; or given and number are both 0. A call
 * answers no other, and one that is handed another refuses it with 7, where its field would stand. */
typedef struct esk_figure {
    int32_t number;
    uint32_t given; /* 1 given, 0 missing */
} esk_figure;

/* ---- packed figures ------------------------------------------------------------------------------------------ */

/*
 * A packed figure is a whole number in base 40, less an offset, so that it needs no sign. The digits and their worths:
 *
 *   '0' to '9'  0 to 9        ':'  36        '-'  38
 *   'A' to 'Z'  10 to 35      ','  37        '.'  39
 *
 * No other byte is a digit; small letters, space and solidus are none. k digits, the most significant first, stand for
 * their base-40 number less 20*40^(k-1):
 *
 *   1 digit           -20 to 19
 *   2 digits         -800 to 799
 *   3 digits       -32000 to 31999
 *   4 digits     -1280000 to 1279999
 *   5 digits    -51200000 to 51199999
 *
 * A figure has one spelling: the fewest digits that hold it, at the end of its field, with spaces before them. In a
 * field of three bytes zero is "  K", 420 is " UK", -2245 is "INZ". A field of solidi alone, "///", is a missing
 * figure, which is no zero.
 */

/* The answer of esk_packed_read. 8 bytes, no padding. */
typedef struct esk_packed {
    int32_t number; /* the figure, where code is 0 and given is 1; else 0 */
    uint16_t place; /* with code 4 the offset of the wrong byte in the field, from 0; else 0 */
    uint8_t code;   /* 0, 1, 4 or 6 */
    uint8_t given;  /* 1 a figure, 0 a missing one (the field is all solidi) or a refusal */
} esk_packed;

/*
 * Reads one packed field of 1 to 5 bytes: leading spaces, then base-40 digits, or solidi throughout. The field is lent
 * for reading. Codes, 1 and 6 at place 0:
 *   1  the field is not 1 to 5 bytes
 *   4  all spaces, a solidus among others, a space after a digit, or a byte that is no digit; place: the first byte, left
 *      to right, up to and with which no field of that width without such a fault could begin. In "/5", " /" and "K/"
 *      that is 1, in "a5" 0, in "K  /" 1; of spaces alone it is the last
 *   6  more digits than the figure needs
 */
esk_packed esk_packed_read(const uint8_t *field, size_t length);

/*
 * Writes a figure as a field of `width` bytes at the start of `out`; a missing one as solidi. `out` is lent for
 * writing, `room` bytes. On success `length` is the width. Codes, all at place 0:
 *   1  width not 1 to 5
 *   5  the figure does not fit the width (width k holds -20*40^(k-1) to 20*40^(k-1) - 1)
 *   7  the figure is not of its one form: given is neither 0 nor 1, or given is 0 and number is not
 *   2  room below the width
 */
esk_answer esk_packed_write(esk_figure figure, size_t width, uint8_t *out, size_t room);

/* ---- the observation report, 220 bytes ------------------------------------------------------------------------ */

/*
 *   place    bytes
 *   0        4       airfield of departure, 'A' to 'Z' or '0' to '9'
 *   4        4       airfield of arrival
 *   8        2       CR LF
 *   10       6       AMDAR3
 *   16       6       designator of the aircraft, 'A' to 'Z' or '0' to '9'
 *   22       2       CR LF
 *   24       27      first observation
 *   51       23      second, and CR LF at 74
 *   76, 99   23      third and fourth, and CR LF at 122
 *   124, 147 23      fifth and sixth, and CR LF at 170
 *   172, 195 23      seventh and eighth, and CR LF at 218
 *
 * An observation is one byte of kind, nine packed figures and one byte of quality. Its bytes, in the first one and in a
 * later one:
 *
 *   first  later
 *   1      1    kind: 'A' ascent, 'D' descent, 'R' level flight, 'W' highest wind, 'U' unstable, 'E' error in the
 *               observation before; of a later one also '/', absent
 *   3           latitude, minutes, north positive, -5400 to 5400
 *          2    change of latitude since the observation before, minutes, -800 to 799
 *   3           longitude, minutes, east positive, -10800 to 10800
 *          2    change of longitude, minutes, -800 to 799
 *   5           seconds into the month, 0 to 2678399
 *          3    seconds since the observation before, 0 to 31999
 *   3      3    altitude, tens of feet, -100 to 6000
 *   2      2    temperature, tenths of a degree Celsius, -800 to 799
 *   2      2    wind direction, degrees that it blows from, 0 to 360
 *   2      2    wind speed, knots, 0 to 799; given or missing together with the direction
 *   2      2    gust, tenths of a metre a second, 0 to 799
 *   3      3    water vapour, thousandths of a gram a kilogram, 0 to 31999
 *   1      1    quality of the water vapour: '0' to '9', or '/' for none
 *
 * Any figure may be missing, also in a present observation. An absent one is 23 solidi, and none behind it is present.
 */
#define ESK_REPORT_BYTES 220

/* One observation. 76 bytes, no padding. In the first one latitude, longitude and time are absolute; in a later one
 * they are changes since the observation before. */
typedef struct esk_observation {
    esk_figure latitude;       /* minutes, north positive: -5400 to 5400; a change -800 to 799 */
    esk_figure longitude;      /* minutes, east positive: -10800 to 10800; a change -800 to 799 */
    esk_figure time;           /* seconds into the month, 0 to 2678399; since the previous one, 0 to 31999 */
    esk_figure altitude;       /* tens of feet, -100 to 6000 */
    esk_figure temperature;    /* tenths of a degree Celsius, -800 to 799 */
    esk_figure wind_direction; /* degrees, 0 to 360; given or missing together with the speed */
    esk_figure wind_speed;     /* knots, 0 to 799 */
    esk_figure gust;           /* tenths of a metre a second, 0 to 799 */
    esk_figure vapour;         /* thousandths of a gram a kilogram, 0 to 31999 */
    uint8_t kind;              /* 'A' 'D' 'R' 'W' 'U' or 'E'; 0 in an absent one */
    uint8_t quality;           /* '0' to '9' or '/'; 0 in an absent one */
    uint16_t present;          /* 1; or 0 for a later observation that is absent: its other members are then all 0 */
} esk_observation;

/* A report. 624 bytes, no padding. */
typedef struct esk_report {
    uint8_t departure[4];
    uint8_t arrival[4];
    uint8_t designator[6];
    uint8_t spare[2]; /* 0 */
    esk_observation first;
    esk_observation later[7];
} esk_report;

/* The answer of esk_report_read. 640 bytes, no padding. Where the answer is a refusal every byte of the report is 0. */
typedef struct esk_report_got {
    esk_answer answer;
    esk_report report;
} esk_report_got;

/*
 * Checks a report's text, field by field from left to right, and builds nothing. The text is lent for reading. length
 * is 0.
 *   1  not 220 bytes; place 0
 * and then, in each field, at its first byte but for 4 in a packed field:
 *   3  AMDAR3 or a CR LF is wrong
 *   4  an airfield, a designator, a kind, a quality or a packed field has a byte that is not allowed there; in a packed
 *      field at the byte that esk_packed_read points at, counted from the text's start
 *   6  a packed figure in more digits than it needs
 *   5  a figure outside its range
 *   7  wind direction and speed, one given and one missing (at the speed); an absent observation whose bytes are not
 *      all solidi (at its kind); a present one behind an absent one (at the later kind)
 */
esk_answer esk_report_check(const uint8_t *text, size_t length);

/* Reads a report. The text is lent for reading. Its answer, codes and places, is that of esk_report_check. */
esk_report_got esk_report_read(const uint8_t *text, size_t length);

/* Where and when an observation was made, in absolute figures. 24 bytes, no padding. A figure is missing where the report
 * does not tell it. */
typedef struct esk_point {
    esk_figure latitude;  /* minutes, north positive: -5400 to 5400 */
    esk_figure longitude; /* minutes, east positive: -10800 to 10800 */
    esk_figure seconds;   /* from the beginning of the month of the first observation on: 0 to 2902392 */
} esk_point;

/* The answer of esk_report_track. 216 bytes, no padding. On refusal every member but the answer is 0. */
typedef struct esk_track {
    esk_answer answer;
    uint32_t count;      /* of points, one for each present observation: 1 to 8 */
    uint32_t spare;      /* 0 */
    esk_point points[8]; /* in the order of the observations; from count on every byte is 0 */
} esk_track;

/*
 * The positions and times of a report's observations: those of the first, and each change added to the figure of the point
 * before. The text is lent for reading. A figure is known where it is given in every observation up to this one; from the
 * first that lacks it on it is missing, whatever follows. So it is with a latitude from the first sum outside -5400 to 5400
 * on. A longitude above 10800 loses 21600 and one below -10800 gains it; both of these are kept as they are. Seconds run on
 * past the month's end. A present observation of which nothing is known has a point all the same; an absent one has none.
 * The answer, codes and places, is that of esk_report_check.
 */
esk_track esk_report_track(const uint8_t *text, size_t length);

/*
 * Writes a report at the start of `out`, which is lent for writing, `room` bytes; on success length is 220. The record
 * is checked first, as its text would be, with the place where the field would stand:
 *   4  a byte of an airfield or the designator, a kind, or a quality that is not allowed
 *   5  a figure outside its range
 *   7  one of wind direction and speed without the other (at the speed); a present observation behind an absent
 *      one (at its kind); and a member that is not of its one form: a figure (where it would stand), present neither
 *      0 nor 1, present 0 in the first observation, or 0 beside members that are not 0 (at the kind), spare not 0 (at
 *      byte 22)
 * Of several the one furthest left is answered, and at one place 4 and 5 come before 7. For 4 and 5 a figure counts as
 * given where given is not 0, an observation as present where present is not 0, and the first one always does.
 * and then
 *   2  room below 220; place 0
 */
esk_answer esk_report_write(esk_report report, uint8_t *out, size_t room);

/* ---- the uplink command, 22 to 845 bytes ----------------------------------------------------------------------- */

/*
 *   place    bytes
 *   0        5       AWR04
 *   5        7       flags, a digit each: AMDAR, inhibit hours, regions, airports, ascent, enroute, descent; '0' off,
 *                    '1' on, '9' no change
 *   12       1       downlink: what the aircraft is to send down; '0' nothing, '1' the flags, '2' all it holds
 *   13       8       indicators E2 to E9, a digit each: '0', or the section's own number where the section follows
 *   21       1       '/'
 *   22               the sections that are named, in rising order, each with a '/' at its end
 *
 * Numbers are decimal digits, as many as the width says, with zeros in front.
 *
 *   section 2, regions: 5 to 453 bytes
 *     2    count of reporting boxes, 00 to 16, and so many boxes of 14 bytes
 *     2    count of inhibiting boxes, 00 to 16, and so many boxes
 *     A box is four edges: north, south (two digits, 00 to 90, and 'N' or 'S'), west, east (three digits, 000 to 180,
 *     and 'E' or 'W'). North is not below south. A box runs eastward from its west edge to its east edge, over 180
 *     degrees where west is above east: 170E to 170W is 20 degrees wide. 180E and 180W are two spellings of one
 *     meridian: 180W to 180E is the globe, 180E to 180W the meridian alone. Zero is spelt 00N and 000E alone.
 *   section 3, airports: 10 to 330 bytes
 *     2    four times a count, 00 to 20, and so many airfields of 4 bytes, 'A' to 'Z' or '0' to '9': selected for
 *          ascent, selected for descent, inhibited for ascent, inhibited for descent
 *     1    routine reports where there is no scheme, 0 or 1
 *   section 4, level flight: 4 bytes
 *     2    interval, minutes, 01 to 60
 *     1    reports of the maximum wind, 0 or 1
 *   section 5, the ascent scheme: 17 bytes
 *     1    mode: '0' by pressure level, '1' by time
 *     2    interval of series 1, seconds, 03 to 20
 *     3    duration of series 1, seconds, 030 to 600
 *     2    interval of series 2, seconds, 03 to 60
 *     3    total duration, tens of seconds, 051 to 111
 *     3    top of the ascent, hundreds of feet, 150 to 350
 *     1    list of pressure levels, '1' or '2'
 *     1    timer for level stretches: '0' off, '1' on
 *   section 6, routine reports in ascent: 2 bytes
 *     1    routine reports where there is no scheme, 0 or 1; looked at while the airports flag is 0
 *   section 7, the descent scheme: 10 bytes
 *     1    mode: '0' by pressure level, '1' by time
 *     3    interval, seconds, 010 to 300; in both modes
 *     3    top of the descent, hundreds of feet, 150 to 350
 *     1    list of pressure levels, '1' or '2'
 *     1    timer for level stretches: '0' off, '1' on
 *   section 8, routine reports in descent: 2 bytes
 *     1    routine reports where there is no scheme, 0 or 1; looked at while the airports flag is 0
 *   section 9, the hours of silence: 5 bytes
 *     2    start hour, 00 to 23
 *     2    end hour, 00 to 23, no longer silent; equal hours are none, and an end before the start is on the next day
 *
 * The lengths count the '/'. With every section and all lists full that is 22 + 453 + 330 + 4 + 17 + 2 + 10 + 2 + 5
 * = 845.
 */
#define ESK_COMMAND_BYTES 845 /* of the longest command */

/* All values are numbers, not the bytes that spell them; letters and airfields are ASCII. */

/* An edge of a box. 2 bytes. Zero degrees have the letter 'N' or 'E'. */
typedef struct esk_edge {
    uint8_t degrees; /* 0 to 90 north or south, 0 to 180 east or west */
    uint8_t letter;  /* 'N' or 'S'; 'E' or 'W' */
} esk_edge;

/* A box. 8 bytes. */
typedef struct esk_region {
    esk_edge north, south; /* north not below south */
    esk_edge west, east;   /* from west eastward to east, over 180 degrees where west is above east */
} esk_region;

/* A list of boxes. 129 bytes. */
typedef struct esk_boxes {
    uint8_t count;          /* 0 to 16 */
    esk_region regions[16]; /* those from count on are 0 in every byte */
} esk_boxes;

/* A list of airfields. 81 bytes. */
typedef struct esk_airfields {
    uint8_t count;     /* 0 to 20 */
    uint8_t names[80]; /* four bytes each, 'A' to 'Z' or '0' to '9'; those from 4 * count on are 0 */
} esk_airfields;

/* Section 2. 258 bytes. */
typedef struct esk_regions {
    esk_boxes reporting, inhibiting;
} esk_regions;

/* A list for each phase that has one. 162 bytes. */
typedef struct esk_by_phase {
    esk_airfields ascent, descent;
} esk_by_phase;

/* Section 3. 325 bytes. */
typedef struct esk_airports {
    esk_by_phase selected, inhibited;
    uint8_t routine; /* 0 or 1 */
} esk_airports;

/* Section 4. 2 bytes. */
typedef struct esk_enroute {
    uint8_t interval; /* minutes, 1 to 60 */
    uint8_t wind;     /* maximum wind: 0 or 1 */
} esk_enroute;

/* Section 5. 10 bytes, no padding. */
typedef struct esk_ascent {
    uint8_t mode;      /* 0 or 1 */
    uint8_t interval1; /* of series 1: 3 to 20 */
    uint16_t duration; /* of series 1: 30 to 600 */
    uint8_t interval2; /* of series 2: 3 to 60 */
    uint8_t total;     /* 51 to 111 */
    uint16_t top;      /* 150 to 350 */
    uint8_t list;      /* 1 or 2 */
    uint8_t timer;     /* 0 or 1 */
} esk_ascent;

/* Section 7. 8 bytes, no padding. */
typedef struct esk_descent {
    uint16_t mode;     /* 0 or 1 */
    uint16_t interval; /* 10 to 300 */
    uint16_t top;      /* 150 to 350 */
    uint8_t list;      /* 1 or 2 */
    uint8_t timer;     /* 0 or 1 */
} esk_descent;

/* Section 9. 2 bytes. */
typedef struct esk_hours {
    uint8_t start, end; /* 0 to 23 each */
} esk_hours;

/* Seven flags and every section: the configuration that an aircraft holds, and what a command carries of it.
 * 614 bytes, aligned to 2, no padding. */
typedef struct esk_settings {
    uint8_t flags[7]; /* AMDAR, inhibit hours, regions, airports, ascent, enroute, descent: 0 or 1; in a command also
                         9, no change */
    esk_regions regions;
    esk_airports airports;
    esk_enroute enroute;
    esk_ascent ascent;
    esk_descent descent;
    uint8_t routine6, routine8; /* sections 6 and 8, for ascent and descent: 0 or 1 */
    esk_hours hours;
} esk_settings;

/* A command. 624 bytes, no padding. */
typedef struct esk_command {
    esk_settings settings; /* a section that is not named is 0 in every byte */
    uint8_t downlink;      /* 0, 1 or 2 */
    uint8_t named[8];      /* for sections 2 to 9: the section's number where it is named, else 0 */
    uint8_t spare;         /* 0 */
} esk_command;

/* The answer of esk_command_read. 640 bytes. Where the answer is a refusal the command is 0 in every member. */
typedef struct esk_command_got {
    esk_answer answer;
    esk_command command;
} esk_command_got;

/*
 * Checks a command's text, field by field from left to right, and builds nothing. The text is lent for reading. length
 * is 0.
 *   1  over 845 bytes; place 0
 * and then, in each field, at its first byte:
 *   8  the text ends inside the field, or before it
 *   3  AWR04 or a delimiter is wrong
 *   4  a flag, the downlink digit, an indicator, a mode, list or timer is another byte; a number has a non-digit; an
 *      edge has a non-digit or another letter; an airfield has a byte that is not allowed
 *   6  zero degrees spelt 00S or 000W
 *   5  a number outside its range
 *   7  north below south (at the south edge); never for longitudes
 * and last
 *   8  bytes after the last delimiter; place: the first of them
 */
esk_answer esk_command_check(const uint8_t *text, size_t length);

/* Reads a command. The text is lent for reading. Its answer, codes and places, is that of esk_command_check. */
esk_command_got esk_command_read(const uint8_t *text, size_t length);

/*
 * Writes a command at the start of `out`, which is lent for writing, `room` bytes; on success length is the text's, at
 * most 845. The command is lent for reading, and is never NULL. It is checked first, as its text would be, with the
 * place where the field would stand:
 *   4  a flag, the downlink digit, an indicator, a mode, list, timer, letter or airfield byte that is not allowed
 *   6  zero degrees with the letter 'S' or 'W'
 *   5  a count, or a number, outside its range
 *   7  spare not 0 (at byte 21); unused entries of a list that are not 0 (at the list's count, after its own check);
 *      north below south, as above; a section that is not named and not 0 (where it would begin)
 * and then
 *   2  room below the text's length; place 0
 */
esk_answer esk_command_write(const esk_command *command, uint8_t *out, size_t room);

/* One section of a command's text, as esk_section finds it. 16 bytes, no padding. place and length are both 0 where the
 * text doesn't name the section; of a refusal the place is the refusal's, and the length 0. */
typedef struct esk_part {
    size_t place;     /* of the section's first byte in the text */
    uint32_t length;  /* of the section, its '/' counted */
    uint8_t code;     /* 0, 1, 3, 4, 5 or 8 */
    uint8_t spare[3]; /* 0 */
} esk_part;

/*
 * Finds one section of a command, `number` 2 to 9, from the header, bytes 0 to 21, and the counts of lists alone: the
 * boxes and airfields that are passed over cost nothing. The text is lent for reading, and nothing of it is copied;
 * esk_part_of has the section's bytes. Of a text that esk_command_check accepts they are that section. Of any other, all
 * that isn't the header or a count on the way may be anything, and so may what stands behind the section.
 *   5  the number is not 2 to 9; place 0
 *   1  over 845 bytes; place 0
 * and then, in each field of the header, at its first byte, as esk_command_check:
 *   8  the text ends inside the field, or before it
 *   3  AWR04 or the delimiter is wrong
 *   4  a flag, the downlink digit or an indicator is another byte
 * A section that the header doesn't name is then answered with code 0 and no bytes. Else, in each section that is named up
 * to that one:
 *   8  the text ends inside a count, or where it would begin; place: the count's first byte
 *   4  a count has a non-digit; place: its first byte
 *   5  a count is above 16, of boxes, or 20, of airfields; place: its first byte
 *   8  the text ends inside the section, and no count of it is refused before; place: the section's first byte
 */
esk_part esk_section(uint32_t number, const uint8_t *text, size_t length);

/* The bytes of a section that esk_section found in this text, part.length of them: the caller's own, not a copy. NULL where
 * there are none: the section is not named, or a refusal. */
static inline const uint8_t *esk_part_of(const uint8_t *text, esk_part part)
{
    return part.length > 0 ? text + part.place : NULL;
}

/* ---- the configuration ----------------------------------------------------------------------------------------- */

/* The configuration after reset. It is valid; nothing is lent. */
esk_settings esk_reset(void);

/*
 * Whether a configuration is valid: the flags are 0 or 1 and every section would pass the checks of esk_command_write.
 * The configuration is lent for reading, and is never NULL. length is 0. Place 0:
 *   12  it is not
 */
esk_answer esk_settings_valid(const esk_settings *settings);

/* The answer of esk_apply. 16 bytes, no padding. */
typedef struct esk_applied {
    size_t place;     /* offset in the text, from 0; 0 with code 12 */
    uint8_t code;     /* 0, 12 or a code of esk_command_check */
    uint8_t downlink; /* the command's downlink digit where code is 0; else 0 */
    uint8_t spare[6]; /* 0 */
} esk_applied;

/*
 * Applies a command's text to the caller's own configuration, in place: sets every flag that is not 9 and replaces
 * every named section whole. The configuration is lent for writing, and is never NULL; the text is lent for reading. A
 * refusal leaves the configuration as it was.
 *   12  the configuration is not valid; place 0
 * and then the refusals of esk_command_check, with their places.
 */
esk_applied esk_apply(esk_settings *settings, const uint8_t *text, size_t length);

/* The answer of esk_difference. 32 bytes, no padding. On refusal every member but the answer is 0. */
typedef struct esk_differing {
    esk_answer answer; /* length: of the command */
    uint8_t count;     /* how many flags and sections differ, 0 to 15 */
    uint8_t items[15]; /* those that do, each once, in the order of the command: flags 1 to 7, then 10 + k for section k,
                          12 to 19; from count on 0 */
} esk_differing;

/*
 * What differs between two configurations, and the command that makes the first into the second, written at the start of
 * `out`. It sets the flags and names the sections that are listed, and no other, to what the second has; no accepted command
 * that does the same sets fewer. Its downlink digit is 0. Where nothing differs it is the command that changes nothing. Both
 * configurations are lent for reading, are never NULL and may be the same; `out`, `room` bytes, is lent for writing.
 *   12  one of the two is not valid; place 0
 *   2   room below the command's length, at most ESK_COMMAND_BYTES; place 0
 */
esk_differing esk_difference(const esk_settings *first, const esk_settings *second, uint8_t *out, size_t room);

/* ---- whether to report ------------------------------------------------------------------------------------------ */

enum { ESK_ASCENT = 0, ESK_LEVEL = 1, ESK_DESCENT = 2 };  /* phases */
enum { ESK_SILENT = 0, ESK_ROUTINE = 1, ESK_SCHEME = 2 }; /* decisions */

/* The answer of esk_decide. 16 bytes, no padding. */
typedef struct esk_decided {
    size_t place;     /* 0 */
    uint8_t code;     /* 0, 12, 5 or 4 */
    uint8_t decision; /* ESK_SILENT, ESK_ROUTINE or ESK_SCHEME; 0 on refusal */
    uint8_t spare[6]; /* 0 */
} esk_decided;

/*
 * Whether an aircraft with this configuration reports: in a phase (ESK_ASCENT..), at a latitude and longitude in
 * minutes, in an hour, at an airfield. Edges belong to a box; a box over 180 degrees holds what is at or east of its west
 * edge or at or west of its east edge; longitudes 10800 and -10800 are answered alike, and in every box that has one of
 * them. The configuration, which is never NULL, and the airfield are lent for reading.
 * Codes, all at place 0:
 *   12  the configuration is not valid
 *   5   phase above 2, hour above 23, latitude not -5400 to 5400 or longitude not -10800 to 10800
 *   4   the airfield is not four bytes 'A' to 'Z' or '0' to '9', in every phase
 */
esk_decided esk_decide(const esk_settings *settings, uint8_t phase, int32_t latitude, int32_t longitude, uint8_t hour,
                       const uint8_t *airfield, size_t length);

/* ---- why it reports or stays silent ------------------------------------------------------------------------------ */

/*
 * Reasons, in the order in which they are looked for; the first that holds is given. 1 to 4 and 7 to 9 go with
 * ESK_SILENT, 6 with ESK_ROUTINE, and 5 with ESK_SCHEME in ascent and descent, with ESK_ROUTINE in level flight. Flags
 * and boxes are counted from 1: flag 5 is ascent, 6 enroute, 7 descent.
 */
enum {
    ESK_WHY_AMDAR_OFF = 1,        /* the AMDAR flag is 0; number 0 */
    ESK_WHY_HOURS = 2,            /* the inhibit hours flag is 1 and the hour is in the window of section 9; number 0 */
    ESK_WHY_INHIBITING_BOX = 3,   /* the regions flag is 1 and an inhibiting box holds the position; number: the lowest
                                     such box, 1 to 16 */
    ESK_WHY_NO_REPORTING_BOX = 4, /* the regions flag is 1, there are reporting boxes and none holds the position;
                                     number 0 */
    ESK_WHY_FLAG_ON = 5,          /* the phase's flag is 1, and in ascent and descent with the airports flag 1 the
                                     airfield is not inhibited, and is selected where any is; number: the flag, 5, 6
                                     or 7 */
    ESK_WHY_DIGIT = 6,            /* ascent or descent without its scheme, and a section's digit is 1; number: that
                                     section, 3 with the airports flag 1, else 6 in ascent and 8 in descent */
    ESK_WHY_FLAG_OFF = 7,         /* the phase's flag is 0; number: the flag, 5, 6 or 7 */
    ESK_WHY_INHIBITED = 8,        /* the airports flag is 1 and the airfield is inhibited for the phase; number 0 */
    ESK_WHY_NOT_SELECTED = 9      /* the airports flag is 1 and the phase has selected airfields, not this one;
                                     number 0 */
};

/* The answer of esk_explain. 16 bytes, no padding. */
typedef struct esk_explained {
    size_t place;     /* 0 */
    uint8_t code;     /* 0, 12, 5 or 4 */
    uint8_t decision; /* ESK_SILENT, ESK_ROUTINE or ESK_SCHEME; 0 on refusal */
    uint8_t reason;   /* ESK_WHY_.., 1 to 9; 0 on refusal */
    uint8_t number;   /* of the box, flag or section that the reason names; 0 where it names none, and on refusal */
    uint32_t spare;   /* 0 */
} esk_explained;

/*
 * Why an aircraft with this configuration reports or stays silent. What is asked, what is lent and what is refused are
 * as for esk_decide, and for every input code, place and decision are those that it answers. The configuration, which
 * is never NULL, and the airfield are lent for reading. Codes, all at place 0:
 *   12  the configuration is not valid
 *   5   phase above 2, hour above 23, latitude not -5400 to 5400 or longitude not -10800 to 10800
 *   4   the airfield is not four bytes 'A' to 'Z' or '0' to '9', in every phase
 */
esk_explained esk_explain(const esk_settings *settings, uint8_t phase, int32_t latitude, int32_t longitude,
                          uint8_t hour, const uint8_t *airfield, size_t length);

/* ---- joining two commands --------------------------------------------------------------------------------------- */

/*
 * Joins two commands' texts into one at the start of `out`: each flag and section from the second where it sets one,
 * else from the first, and the larger downlink digit. The two texts are lent for reading, and may be the same; `out` is
 * lent for writing, `room` bytes. On success length is the joined text's, at most 845.
 *   the refusals of esk_command_check for the first text, with text 1 and the place in it,
 *   those for the second, with text 2 and the place in it, and then
 *   2  room below the joined text's length, with text 0; place 0
 */
esk_answer esk_join(const uint8_t *first, size_t first_length, const uint8_t *second, size_t second_length,
                    uint8_t *out, size_t room);

/* ---- when order is of no account -------------------------------------------------------------------------------- */

/* The answer of esk_commute. 16 bytes, no padding. */
typedef struct esk_commute_answer {
    size_t place;     /* offset of the byte that the code speaks of, from 0 */
    uint8_t code;     /* 0, or a code of esk_command_check */
    uint8_t text;     /* which text is at fault, 1 or 2; 0 where code is 0 */
    uint8_t yes;      /* 1 either way round is the same, 0 it is not; 0 on refusal */
    uint8_t flags;    /* bit i: both set flag i, and differently; i from 0, AMDAR, to 6, descent. 0 on refusal */
    uint8_t sections; /* bit k - 2: both name section k, with other contents; k from 2 to 9. 0 on refusal */
    uint8_t spare[3]; /* 0 */
} esk_commute_answer;

/*
 * Whether two commands may be sent either way round, and what stands against it. yes is 1 exactly where, from every
 * valid configuration, applying `a` and then `b` gives the same one as applying `b` and then `a`; and that is where flags
 * and sections are both 0: every flag and section that both set has the same contents in both. The joined texts are then
 * the same bytes too. The downlink digits play no part: esk_join keeps the larger, whichever comes first. The two texts
 * are lent for reading, and may be the same.
 *   the refusals of esk_command_check for `a`, with text 1 and the place in it, and then
 *   those for `b`, with text 2 and the place in it
 */
esk_commute_answer esk_commute(const uint8_t *a, size_t a_length, const uint8_t *b, size_t b_length);

/* ---- the waiting board ------------------------------------------------------------------------------------------ */

/*
 * The board holds the commands that wait for aircraft out of coverage, one text for each: what is added is joined onto
 * what waits, so that nothing is ever dropped. Its memory is the caller's: n slots, at most 64, and an area with 845
 * bytes for each. A board begins with all bytes 0, which is n free slots; from then on esk_board_add and esk_board_take
 * alone change it. Slot i's text stands in the area from byte 845 * i on. To see what waits for an aircraft, and leave
 * it there, read the slot whose length is not 0 and whose designator is the aircraft's.
 */
#define ESK_BOARD_SLOTS 64 /* the most */

/* A slot. 8 bytes, no padding. Its text is the first `length` bytes of its 845 in the area. */
typedef struct esk_slot {
    uint8_t designator[6]; /* 'A' to 'Z' or '0' to '9'; of a free slot, any bytes */
    uint16_t length;       /* of the text that waits; 0: the slot is free */
} esk_slot;

/*
 * Checks a board: n slots, and an area of 845 bytes for each, both lent for reading. length is 0. Place 0:
 *   10  more than 64 slots, an area of another length, a used slot whose designator has a byte that is not allowed or
 *       is another used slot's, or whose text is not an accepted command
 */
esk_answer esk_board_check(const esk_slot *slots, size_t n, const uint8_t *area, size_t area_length);

/*
 * Adds a command for an aircraft: joined onto the text that waits for it, or into the lowest free slot. Slots and area
 * are lent for writing, designator and text for reading. On success length is that of the text that then waits. Only
 * that slot and the bytes of that text change. `text` of the answer is always 0.
 *   10  the board is not valid, as for esk_board_check; place 0
 *   4   the designator is not six bytes 'A' to 'Z' or '0' to '9'; place 0
 *   the refusals of esk_command_check, with their places in the text, and then
 *   9   nothing waits for that aircraft and no slot is free; place 0
 */
esk_answer esk_board_add(esk_slot *slots, size_t n, uint8_t *area, size_t area_length, const uint8_t *designator,
                         size_t designator_length, const uint8_t *text, size_t length);

/*
 * Takes what waits for an aircraft: copies it to the start of `out` and frees its slot. Slots and `out`, `room` bytes,
 * are lent for writing, area and designator for reading. On success length is the text's. The slot's length becomes 0;
 * its designator and the area stay. Codes, all at place 0:
 *   10  the board is not valid, as for esk_board_check
 *   4   the designator is not six bytes 'A' to 'Z' or '0' to '9'
 *   11  nothing waits for that aircraft
 *   2   room below the text's length
 */
esk_answer esk_board_take(esk_slot *slots, size_t n, const uint8_t *area, size_t area_length,
                          const uint8_t *designator, size_t designator_length, uint8_t *out, size_t room);

/* ---- two offices on one board ----------------------------------------------------------------------------------- */

/* What an office may do: a byte that is not 0 grants. Its order is that of a command's bytes 5 to 20. 16 bytes, no
 * padding. */
typedef struct esk_grant {
    uint8_t flags[7];    /* AMDAR, inhibit hours, regions, airports, ascent, enroute, descent */
    uint8_t downlinks;   /* may ask for downlinks */
    uint8_t sections[8]; /* sections 2 to 9 */
} esk_grant;

/*
 * As esk_board_add, for an office: `own` is its grant, `other` the grant of the office that shares the board. A flag 9, an
 * indicator 0 and a downlink digit 0 set nothing and ask for nothing, so that no grant is needed for them. Nothing changes
 * on a refusal. Taking needs no grant: esk_board_take.
 *   13  the two grants overlap in a flag or a section, or both have downlinks; place 0
 *   10  the board is not valid, as for esk_board_check; place 0
 *   4   the designator is not six bytes 'A' to 'Z' or '0' to '9'; place 0
 *   the refusals of esk_command_check, with their places in the text, and then
 *   13  the command sets a flag, names a section or asks for a downlink that `own` does not grant; place 0
 *   9   nothing waits for that aircraft and no slot is free; place 0
 * On a board that began empty and to which only two offices add, under the same two grants, an office's own flags and
 * sections in what waits are those of its own accepted commands since the last taking, joined, whatever the other sent.
 */
esk_answer esk_office_add(esk_slot *slots, size_t n, uint8_t *area, size_t area_length, const uint8_t *designator,
                          size_t designator_length, const uint8_t *text, size_t length, esk_grant own, esk_grant other);

/* ---- a list of the aircraft that something waits for ---------------------------------------------------------- */

/*
 * Beside a board a list may be kept: a byte a slot, the numbers of the used slots in rising order of designator, byte by
 * byte, and 255 behind them. A board has one list and no other, and an empty board's is 255 in every byte. A list that
 * disagrees with its board in any byte, or has another length, is refused with 10 before all else.
 */

/* The answer of a search. 16 bytes, no padding. */
typedef struct esk_tail {
    size_t place;  /* of a refusal; always 0 */
    uint8_t code;
    uint8_t slot;  /* of the aircraft, counted from 0; 0 in a refusal */
    uint8_t at;    /* with codes 0 and 11: how many of the list come before the aircraft; else 0 */
    uint8_t spare; /* 0 */
    uint32_t rest; /* 0 */
} esk_tail;

/*
 * Makes the list of n slots, which are lent for reading; the list, list_length bytes, is lent for writing. No text is
 * looked at. length is 0. Place 0:
 *   10  more than 64 slots, a list of another length than n, or two used slots of one designator
 */
esk_answer esk_tails_make(const esk_slot *slots, size_t n, uint8_t *list, size_t list_length);

/*
 * Searches for an aircraft by bisecting the list. All is lent for reading, and no text is looked at: of a board that
 * esk_board_check accepts it finds the slot that a walk over the slots finds. Codes, all at place 0:
 *   10  the list is not that of the slots
 *   4   the designator is not six bytes 'A' to 'Z' or '0' to '9'
 *   11  nothing waits for that aircraft; `at` says where in the list it would stand
 */
esk_tail esk_tails_find(const esk_slot *slots, size_t n, const uint8_t *list, size_t list_length,
                        const uint8_t *designator, size_t designator_length);

/* As esk_board_add; the list, lent for writing, is afterwards that of the board. 10 also where it was not before. */
esk_answer esk_tails_add(esk_slot *slots, size_t n, uint8_t *area, size_t area_length, uint8_t *list, size_t list_length,
                         const uint8_t *designator, size_t designator_length, const uint8_t *text, size_t length);

/* As esk_board_take; the list, lent for writing, is afterwards that of the board. 10 also where it was not before. */
esk_answer esk_tails_take(esk_slot *slots, size_t n, const uint8_t *area, size_t area_length, uint8_t *list,
                          size_t list_length, const uint8_t *designator, size_t designator_length, uint8_t *out,
                          size_t room);

/* ---- the journal ------------------------------------------------------------------------------------------------ */

/*
 * The journal holds the commands that were taken for aircraft, in the order in which they were. Its memory is the
 * caller's: a buffer of `room` bytes, of which the journal is the first `end`. No bytes, `end` 0, are the empty journal.
 * Its entries stand one behind the other, the oldest first, and each is
 *
 *   6          designator of the aircraft, 'A' to 'Z' or '0' to '9'
 *   22 to 845  the command's text, which esk_command_check accepts
 *   2          the text's length, the high byte first
 *   1          'J'; it and the two bytes before it are the trailer
 *
 * so that it is read from its end. A journal is broken where that fails: there the trailer's letter or length, the
 * designator or the text before it is wrong, or that begins before byte 0. Each call refuses a broken one first, with 14:
 * the place is that of the first such trailer from the end, and 0 where fewer than three bytes are left for one, `end`
 * is above 65535, or above `room`.
 */
#define ESK_JOURNAL_BYTES 65535   /* the most */
#define ESK_JOURNAL_PRINTED 76105 /* no journal prints more: of each entry, 31 bytes or more, up to five more */

/* An entry, as esk_journal_last finds it: its designator is the six bytes from `offset` on. 32 bytes, no padding. Every
 * number but place and code is 0 where there is none. */
typedef struct esk_entry {
    size_t place;    /* of a refusal */
    size_t offset;   /* of the entry's first byte */
    size_t text;     /* of its text's first byte, offset + 6 */
    uint32_t length; /* of its text */
    uint8_t code;    /* 0 or 14 */
    uint8_t given;   /* 1 an entry, 0 none: the journal is empty, or a refusal */
    uint16_t spare;  /* 0 */
} esk_entry;

/*
 * Checks a journal, which is lent for reading. length is 0.
 *   14  it is broken
 */
esk_answer esk_journal_check(const uint8_t *journal, size_t room, size_t end);

/*
 * The newest entry of a journal, which is lent for reading: the next older one is the newest of the first `offset`
 * bytes, and where `offset` is 0 there is none. It looks at that entry alone; what stands before it may be broken.
 *   14  it is broken at its end
 */
esk_entry esk_journal_last(const uint8_t *journal, size_t room, size_t end);

/*
 * Adds what was taken for an aircraft behind all else. The journal's buffer is lent for writing, designator and text for
 * reading. On success length is the journal's new one, and the bytes from `end` up to it are the entry's; all others
 * stay.
 *   14  the journal is broken
 *   4   the designator is not six bytes 'A' to 'Z' or '0' to '9'; place 0
 *   the refusals of esk_command_check, with their places in the text, and then
 *   2   with the entry the journal would be longer than 65535 bytes, or than its buffer; place 0
 */
esk_answer esk_journal_add(uint8_t *journal, size_t room, size_t end, const uint8_t *designator,
                           size_t designator_length, const uint8_t *text, size_t length);

/*
 * How long a journal is without its newest `count` entries: that many of its bytes are the journal of all the others.
 * It is lent for reading, and nothing is written; on success length is that length.
 *   14  the journal is broken
 *   5   it has fewer entries; place 0
 */
esk_answer esk_journal_drop(const uint8_t *journal, size_t room, size_t end, size_t count);

/*
 * Prints a journal at the start of `out`, a line for each entry, the newest first: its offset in decimal, a space, the
 * designator, a space, the text, LF. The journal is lent for reading, `out`, `out_room` bytes, for writing. On success
 * length is that of all the lines.
 *   14  the journal is broken
 *   2   out_room below the lines' length; place 0
 */
esk_answer esk_journal_print(const uint8_t *journal, size_t room, size_t end, uint8_t *out, size_t out_room);

/*
 * The configuration of an aircraft that began after reset and applied each of its texts in the journal, the oldest first.
 * It takes the place of the one that is lent for writing, which is never NULL and may hold anything; journal and
 * designator are lent for reading. length is 0. A refusal leaves the configuration as it was.
 *   14  the journal is broken
 *   4   the designator is not six bytes 'A' to 'Z' or '0' to '9'; place 0
 */
esk_answer esk_journal_replay(esk_settings *settings, const uint8_t *journal, size_t room, size_t end,
                              const uint8_t *designator, size_t designator_length);

/* ---- the derived equivalent gust --------------------------------------------------------------------------------- */

/*
 * Some operators send an aircraft's vertical acceleration and no gust. The gust is worked out from it by the formula of
 * the AAA specification, section 2.2.4, with the constants that its table has for the type of aircraft. The lines of the
 * table are numbered here, from 0, in its order:
 *
 *    0  A300B4          9  A340-300       18  B747-200       27  B777-200
 *    1  A310           10  B727           19  B747-300       28  B777-300
 *    2  A318           11  B737-200       20  B747-400       29  BAC111-200
 *    3  A319           12  B737-300       21  B747SP         30  BAC111-475
 *    4  A320-200       13  B737-400       22  B757-200       31  DC10-30
 *    5  A321           14  B737-500       23  B757-300       32  Electra
 *    6  A330-200       15  B737-600       24  B767-200       33  Fokker-100
 *    7  A330-300       16  B737-700       25  B767-300       34  KingAir 100
 *    8  A340-200       17  B737-800       26  B767-400       35  L1011-500
 *
 * A figure of a report, esk_observation's gust, is in the same tenths of a metre a second.
 */

/* The answer of esk_gust. 8 bytes, no padding. The place of a refusal is always 0, so there is none. */
typedef struct esk_gust_answer {
    int32_t gust;     /* tenths of a metre a second, 0 to 799; 0 on refusal */
    uint8_t code;     /* 0 or 5 */
    uint8_t spare[3]; /* 0 */
} esk_gust_answer;

/*
 * The gust that an aircraft of a row of the table met.
 *   height        in feet, -1000 to 50000
 *   mass          in kilograms, 1 to 500000
 *   acceleration  its greatest distance from 1 g, up or down, in thousandths of g, 0 to 5000
 *   speed         calibrated airspeed in knots, 1 to 500
 * Whole numbers, every division rounded down, toward minus infinity. No acceleration is a gust of 0.
 *   5   the row is none of the table's, an input is outside its range, or the gust is below 0 or above 799
 */
esk_gust_answer esk_gust(uint32_t row, int32_t height, uint32_t mass, uint32_t acceleration, uint32_t speed);

/* ---- the status sheet, AMDARSTATUS3 -------------------------------------------------------------------------------- */

/*
 * 24 lines, each with CR LF, 913 bytes in all; docs/STATUS-SHEET.md has every field with its place. A record of its own:
 * no other call takes it, and no command acts on it.
 */

/* A box. 10 bytes, no padding. North and east are positive. */
typedef struct esk_sheet_box {
    int16_t latitude1, longitude1; /* minutes, -5400 to 5400 and -10800 to 10800 */
    int16_t latitude2, longitude2;
    int16_t status; /* 1 active, 0 disabled */
} esk_sheet_box;

/* An airport. 5 bytes, no padding. */
typedef struct esk_sheet_airport {
    uint8_t icao[4]; /* 'A' to 'Z' or '0' to '9' */
    uint8_t status;  /* 1 active, 0 disabled */
} esk_sheet_airport;

/* 388 bytes, no padding. */
typedef struct esk_sheet {
    int16_t ascent;                               /* 1 R active, 0 D disabled */
    int16_t ascent_interval1, ascent_interval2;   /* hPa, 1 to 99 */
    int16_t level;                                /* 1 R, 0 D */
    int16_t level_interval;                       /* seconds, 0 to 999 */
    int16_t descent;                              /* 1 R, 0 D */
    int16_t descent_interval1, descent_interval2; /* hPa, 1 to 99 */
    int16_t trigger1, trigger2;                   /* hPa, 0 to 9999 */
    int16_t observations;                         /* N, 0 to 99 */
    int16_t smoothing;                            /* 0 none, 1 ASDAR, 2 arithmetic mean */
    int16_t profile_constant, cruise_constant, gust_constant, instant_constant; /* 0 to 9 */
    esk_sheet_box boxes[10];
    uint8_t designator[6];          /* 'A' to 'Z' or '0' to '9' */
    esk_sheet_airport airports[50]; /* 1 to 50; a row of the text has r + 1, r + 11, r + 21, r + 31, r + 41 */
} esk_sheet;

/* The answer of esk_sheet_read. 408 bytes, no padding. Where the answer is a refusal every byte of the sheet is 0. */
typedef struct esk_sheet_got {
    esk_answer answer;
    esk_sheet sheet;
    uint32_t spare; /* 0 */
} esk_sheet_got;

/*
 * Checks a sheet's text, field by field from left to right, and builds nothing. The text is lent for reading. length is 0.
 * In each field, at its first byte:
 *   8  the text ends before the field does
 *   3  a fixed group is wrong
 *   4  a designator, an airport, a mark or a number has a byte that is not allowed there
 *   6  a zero before another digit, or -0
 *   5  a number outside its range
 * and then, at 913:
 *   8  bytes behind the last line
 */
esk_answer esk_sheet_check(const uint8_t *text, size_t length);

/* Reads a sheet. The answer is that of esk_sheet_check. */
esk_sheet_got esk_sheet_read(const uint8_t *text, size_t length);

/*
 * Writes a sheet into the first 913 bytes of out; length is 913. On refusal no byte of out is written. The record first, field by
 * field in the text's order, at the place where the field would stand:
 *   4  a designator, an airport or a mark that is none
 *   5  a number outside its range
 * and then, at 0:
 *   2  room below 913
 */
esk_answer esk_sheet_write(esk_sheet sheet, uint8_t *out, size_t room);

/* ---- what the library says of itself ---------------------------------------------------------------------------- */

/*
 * These four are not proved: they are tables of words and numbers (host/words.c), and no verdict hangs on them. What
 * they answer stays for as long as the library is loaded, and is not to be written to.
 */

/* What a code means, in English, without a full stop: "a number outside its range". Any code at all has words; one that
 * no call answers has "an unknown code". Never NULL. */
const char *esk_words(unsigned code);

/* What a reason of esk_explain means: "the hour is in the hours of silence". 0, the reason of a refusal, has words too;
 * one that is never answered has "an unknown reason". Never NULL. */
const char *esk_reason_words(unsigned reason);

/* The ESK_VERSION that the library was built with. A program that loads it while it runs holds it against its own: the
 * first numbers must be equal, and the library's second not below the program's. */
const char *esk_version(void);

/* The bytes of a record as the library has it, by name, "esk_report" or "esk_slot"; 0 where the name is NULL or none of
 * this header's. A caller in another language holds its own layout against it before the first call. */
size_t esk_size_of(const char *record);

#ifdef __cplusplus
}
#endif

#endif
