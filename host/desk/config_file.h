/*
 * config_file.h: a configuration kept in a file, in three lines that end with LF:
 *
 *   ESKELVOR CONFIGURATION 2
 *   AWR04..                    the command that sets every flag and names every section, as the configuration has them
 *   1a2b3c4d                   CRC-32 (IEEE 802.3) of all bytes before it
 *
 * It is read by the proved reader of commands. A file that is damaged is refused with code 12, and never mended.
 *
 * Version 1 is from before section 7: its command names every other section. It is read to be carried over alone.
 */
#ifndef DESK_CONFIG_FILE_H
#define DESK_CONFIG_FILE_H

#include "keep.h"

enum { CONFIG_MOST = 25 + ESK_COMMAND_BYTES + 1 + 9 };

/* The command that sets all of a valid configuration; gives its length, 0 where the configuration is not valid. */
size_t config_text(const esk_settings *settings, uint8_t *to);

/* The file's bytes; gives how many. */
size_t config_pack(const esk_settings *settings, uint8_t *to);

/* The configuration of a file's bytes: FINE; REFUSED where they are damaged; TROUBLE for another format version. */
int config_unpack(esk_settings *settings, const uint8_t *bytes, size_t length, const char **why);

/* The same for the bytes of a file of version 1; section 7, which it has not, is as after reset. */
int config_unpack_older(esk_settings *settings, const uint8_t *bytes, size_t length, const char **why);

/* Makes a new file of one of version 1, which is held meanwhile, and left as it is. */
int config_convert(const char *from, const char *to, esk_settings *settings, long wait);

/* Reads a configuration's file, and tells what is wrong with it; for NULL, the configuration after reset. */
int config_read(const char *file, esk_settings *settings);

/* Whether a configuration may be kept in this file: there is none yet, or it is a sound one. Tells why not. */
int config_may_replace(const char *file);

/* Writes the configuration's bytes beside the held file, as keep_write does. */
int config_write(kept *k, const esk_settings *settings);

#endif
