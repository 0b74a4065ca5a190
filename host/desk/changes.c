#include "changes.h"

#include "config_file.h"
#include "json.h"
#include "settings.h"

#include <stdio.h>

/* What differs is the proved call's to say: both are valid, and there is room for any command. */
static esk_differing changed(const esk_settings *old, const esk_settings *now)
{
    uint8_t text[ESK_COMMAND_BYTES];
    return esk_difference(old, now, text, sizeof text);
}

static void say_changed_flag(const esk_settings *old, const esk_settings *now, int i)
{
    printf("flag %s: was %d, is %d, %s\n", flag_names[i], old->flags[i], now->flags[i], flag_in_words(i, now->flags[i]));
}

static void say_changed_section(const esk_settings *old, const esk_settings *now, int k)
{
    printf("section %d: %s\n  was\n", k, section_title(k));
    say_section(old, k, "    ");
    puts("  is");
    say_section(now, k, "    ");
}

static void json_changed(const esk_settings *old, const esk_settings *now, int item)
{
    json_object(NULL);
    if (is_flag(item)) {
        json_word("flag", flag_names[flag_of(item)]);
        json_number("was", old->flags[flag_of(item)]);
        json_number("is", now->flags[flag_of(item)]);
    } else {
        json_number("section", section_of(item));
        json_section("was", old, section_of(item));
        json_section("is", now, section_of(item));
    }
    json_close();
}

void say_changes(const esk_settings *old, const esk_settings *now)
{
    esk_differing d = changed(old, now);
    for (int i = 0; i < d.count; i++)
        if (is_flag(d.items[i]))
            say_changed_flag(old, now, flag_of(d.items[i]));
        else
            say_changed_section(old, now, section_of(d.items[i]));
    if (d.count == 0)
        puts("nothing changed");
}

void json_changes(const esk_settings *old, const esk_settings *now)
{
    esk_differing d = changed(old, now);
    json_list("changes");
    for (int i = 0; i < d.count; i++)
        json_changed(old, now, d.items[i]);
    json_close();
}

void json_configuration(const esk_settings *s)
{
    uint8_t text[ESK_COMMAND_BYTES];
    size_t length = config_text(s, text);
    json_text("configuration", text, length);
}

void say_configuration(const esk_settings *s)
{
    for (int i = 0; i < FLAGS; i++)
        printf("flag %s: %d, %s\n", flag_names[i], s->flags[i], flag_in_words(i, s->flags[i]));
    for (int k = 2; k <= 9; k++) {
        printf("section %d: %s\n", k, section_title(k));
        say_section(s, k, "  ");
    }
}
