/* eskelvor config: a configuration from before section 7 carried over. */
#include "changes.h"
#include "config_file.h"
#include "json.h"
#include "mark.h"
#include "options.h"
#include "settings.h"

#include <stdio.h>
#include <string.h>

enum { WAIT_MOST = 86400, ADDED = 7 }; /* ADDED: the section that the older format has not */

static int tell_converted(const char *from, const char *to, const esk_settings *s)
{
    char name[NAME_ROOM], old[NAME_ROOM];
    if (as_json) {
        json_object(NULL);
        json_bool("accepted", 1);
        json_number("code", ESK_ACCEPTED);
        json_word("file", to);
        json_configuration(s);
        json_close();
        return FINE;
    }
    printf("%s: the configuration of %s, which is left as it is\n", name_safely(to, name, sizeof name),
           name_safely(from, old, sizeof old));
    printf("section %d, which that had not, is as after reset: %s\n", ADDED, section_title(ADDED));
    say_section(s, ADDED, "  ");
    return FINE;
}

static int run(int count, char **words)
{
    const char *wait = "10";
    esk_settings settings;
    const option known[] = {VALUE_OPTION("--wait", NULL, &wait)};
    if (take_options(&count, words, known, OPTIONS(known)) != FINE)
        return TROUBLE;
    long seconds = whole_number(wait, 0, WAIT_MOST);
    if (seconds < 0)
        return trouble("--wait", "give whole seconds");
    if (count != 3 || strcmp(words[1], "convert") != 0)
        return trouble(NULL, "config OLD convert NEW; --help tells more");
    int status = config_convert(words[0], words[2], &settings, seconds);
    return status == FINE ? tell_converted(words[0], words[2], &settings) : status;
}

const subcommand config_subcommand = {
    "config",
    "OLD convert NEW",
    "Carries a configuration from before section 7 over",
    "  convert NEW  of a configuration's file from before section 7, which is refused\n"
    "               elsewhere, makes a new one; a file that is there stays, and so\n"
    "               does the old one\n"
    "  --wait S     waits S seconds for another writer (10)\n"
    "\n"
    "All flags and sections are those of the old file; section 7, the descent\n"
    "scheme, is as after reset, and is shown. eskelvor apply changes it.\n",
    run,
    0,
};
