/* changes.h: what differs between two configurations, and one whole, in words and as JSON. */
#ifndef DESK_CHANGES_H
#define DESK_CHANGES_H

#include "eskelvor.h"

/* An item of esk_difference's list: a flag, from 0, or a section. */
static inline int is_flag(int item) { return item <= 7; }
static inline int flag_of(int item) { return item - 1; }
static inline int section_of(int item) { return item - 10; }

/* Each flag and section that is another, with what it was and is; or that nothing changed. */
void say_changes(const esk_settings *old, const esk_settings *now);

/* All that a configuration says. */
void say_configuration(const esk_settings *s);

/* The keys in the object that is open: the list of changes; the configuration as the command that sets all of it. */
void json_changes(const esk_settings *old, const esk_settings *now);
void json_configuration(const esk_settings *s);

#endif
