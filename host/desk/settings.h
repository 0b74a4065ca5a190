/* settings.h: the flags and sections of a command or a configuration, in words. */
#ifndef DESK_SETTINGS_H
#define DESK_SETTINGS_H

#include "eskelvor.h"

#include <stdio.h>

enum { FLAGS = 7 };

extern const char *const flag_names[FLAGS];

/* What a flag of this value means. */
const char *flag_in_words(int flag, uint8_t value);
const char *downlink_in_words(uint8_t digit);

/* What section k (2 to 9) is about, and all it says, each line behind `indent`: to a stream, or to standard output. */
const char *section_title(int k);
void write_section(FILE *to, const esk_settings *s, int k, const char *indent);
void say_section(const esk_settings *s, int k, const char *indent);

/* All that a command says. */
void say_command(const esk_command *c);

/* The same as JSON: an object with this key. */
void json_flags(const char *key, const esk_settings *s);
void json_section(const char *key, const esk_settings *s, int k);

/* A command's keys in the object that is open: flags, downlink, sections. */
void json_command(const esk_command *c);

#endif
