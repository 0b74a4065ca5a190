#!/usr/bin/env python3
"""Reads a night of reports and prints the coldest level of each ascent.

    python3 examples/coldest.py examples/night.reports

An ascent is all that one aircraft reports of kind A, over as many reports as it takes, up to its first observation of
another kind or its next departure. A temperature that was not measured is passed over; it is no zero.
"""

import sys
from typing import Dict, Iterable, List, NamedTuple

import eskelvor


class Ascent(NamedTuple):
    """The observations of one aircraft's climb."""

    designator: str
    departure: str
    arrival: str
    observations: List[eskelvor.Observation]


def ascents(reports: Iterable[eskelvor.Report]) -> List[Ascent]:
    """The ascents in the order in which they begin."""
    found: List[Ascent] = []
    climbing: Dict[str, Ascent] = {}
    for report in reports:
        flight = (report.designator, report.departure, report.arrival)
        for observation in report.observations:
            ascent = climbing.get(report.designator)
            if observation.kind != "A":
                climbing.pop(report.designator, None)
            elif ascent is not None and ascent[:3] == flight:
                ascent.observations.append(observation)
            else:
                climbing[report.designator] = Ascent(*flight, [observation])
                found.append(climbing[report.designator])
    return found


def coldest(ascent: Ascent) -> str:
    """One line about an ascent."""
    measured = [one for one in ascent.observations if one.temperature is not None]
    if not measured:
        return "no temperature in %d observations" % len(ascent.observations)
    level = min(measured, key=lambda one: one.temperature)
    height = "an unknown height" if level.altitude_feet is None else "%d feet" % level.altitude_feet
    return "%.1f degrees C at %s, of %d levels" % (level.temperature_celsius, height, len(measured))


def main(words: List[str]) -> int:
    """Prints a line for each ascent, and on standard error one for each report that was refused."""
    if len(words) != 1:
        print("usage: coldest.py FILE", file=sys.stderr)
        return 2
    refused: List[eskelvor.Refusal] = []
    for ascent in ascents(eskelvor.reports(words[0], refused=refused.append)):
        print("%s %s to %s: %s" % (*ascent[:3], coldest(ascent)))
    sys.stdout.flush()
    for refusal in refused:
        print("refused: %s" % refusal, file=sys.stderr)
    return 1 if refused else 0


if __name__ == "__main__":
    sys.exit(main(sys.argv[1:]))
