/* reports.h: two whole reports that the tests of reports and records begin with. */
#ifndef REPORTS_H
#define REPORTS_H

#define SOLIDI "//////////////////////////////////////////////\r\n"

static const char printed[] = "ABCDEFGH\r\nAMDAR3XY0001\r\n"
                              "A  K  K    K  K K K K/////////////////////////////\r\n" SOLIDI SOLIDI SOLIDI;

/* Eight observations, all present; the second has no figure at all. */
static const char full[] = "YMMLYPAD\r\nAMDAR3AU0137\r\n"
                           "RINZPF: YZ9FLAED5RT U L///9R//////////////////////\r\n"
                           "D .IM UKM335UQEL4 M///9A K K  K HKKLT0.. K.../\r\n"
                           "W0000  KNU000 K K..  K0U.......  K K L K K  K5\r\n"
                           "E K K  K  K K K K K  K5R K K  K  K////// K///9\r\n";

#endif
