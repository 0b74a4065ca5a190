/* eskelvor gust: the gust that an aircraft met, worked out from its acceleration. */
#include "gust.h"

#include "json.h"
#include "options.h"

#include <ctype.h>
#include <stdio.h>
#include <stdlib.h>
#include <string.h>

const char *const gust_types[GUST_TYPES] = {
    "A300B4", "A310", "A318", "A319", "A320-200", "A321", "A330-200", "A330-300", "A340-200", "A340-300", "B727",
    "B737-200", "B737-300", "B737-400", "B737-500", "B737-600", "B737-700", "B737-800", "B747-200", "B747-300",
    "B747-400", "B747SP", "B757-200", "B757-300", "B767-200", "B767-300", "B767-400", "B777-200", "B777-300",
    "BAC111-200", "BAC111-475", "DC10-30", "Electra", "Fokker-100", "KingAir 100", "L1011-500",
};

const char *const gust_inputs[GUST_INPUTS] = {"type", "height", "mass", "acceleration", "speed"};

const char *const gust_wants[GUST_INPUTS] = {"no such type; eskelvor gust --list names them", "a whole number of feet",
                                             "a whole number of kilograms", "a whole number of thousandths of g",
                                             "a whole number of knots"};

/* A letter of a type's name as it is compared. */
static int letter(char c)
{
    return c == '-' ? ' ' : toupper((unsigned char)c);
}

int gust_type(const char *name)
{
    for (int i = 0; i < GUST_TYPES; i++) {
        const char *one = gust_types[i], *other = name;
        while (*one && letter(*one) == letter(*other)) {
            one++;
            other++;
        }
        if (*one == 0 && *other == 0)
            return i;
    }
    return -1;
}

/* A whole number, from `least` to `most` or, beyond these, the nearer of them. Gives whether the word is one. */
static int whole(const char *word, long long least, long long most, long long *number)
{
    const char *digits = word + (*word == '-');
    if (*digits == 0 || digits[strspn(digits, "0123456789")] != 0)
        return 0;
    *number = strtoll(word, NULL, 10); /* at its own ends where it is beyond them */
    *number = *number < least ? least : *number > most ? most : *number;
    return 1;
}

/* A number that is not below zero; one below it becomes one that no range has. */
static int counted(const char *word, uint32_t *number)
{
    long long n;
    if (!whole(word, -1, UINT32_MAX, &n))
        return 0;
    *number = n < 0 ? UINT32_MAX : (uint32_t)n;
    return 1;
}

int gust_understand(gust_question *q)
{
    int type = gust_type(q->words[TYPE]);
    long long height;
    if (type < 0)
        return TYPE;
    if (!whole(q->words[HEIGHT], INT32_MIN, INT32_MAX, &height))
        return HEIGHT;
    if (!counted(q->words[MASS], &q->mass))
        return MASS;
    if (!counted(q->words[ACCELERATION], &q->acceleration))
        return ACCELERATION;
    if (!counted(q->words[SPEED], &q->speed))
        return SPEED;
    q->row = (uint32_t)type;
    q->height = (int32_t)height;
    return GUST_INPUTS;
}

esk_gust_answer gust_ask(const gust_question *q)
{
    return esk_gust(q->row, q->height, q->mass, q->acceleration, q->speed);
}

const char *gust_because(const gust_question *q)
{
    if (q->height < -1000 || q->height > 50000)
        return "the height is -1000 to 50000 feet";
    if (q->mass < 1 || q->mass > 500000)
        return "the mass is 1 to 500000 kilograms";
    if (q->acceleration > 5000)
        return "the acceleration is 0 to 5000 thousandths of g from 1 g";
    if (q->speed < 1 || q->speed > 500)
        return "the speed is 1 to 500 knots";
    return "the gust comes out below 0 or above 79.9 m/s";
}

void gust_metres(int32_t tenths, char to[GUST_ROOM])
{
    snprintf(to, GUST_ROOM, "%ld.%ld", (long)tenths / 10, (long)tenths % 10);
}

void json_gust(const gust_question *q, esk_gust_answer a)
{
    char metres[GUST_ROOM];
    json_word("type", gust_types[q->row]);
    json_number("row", q->row);
    json_number("height_feet", q->height);
    json_number("mass_kilograms", q->mass);
    json_number("acceleration_thousandths", q->acceleration);
    json_number("speed_knots", q->speed);
    gust_metres(a.gust, metres);
    json_number("gust_tenths", a.gust);
    json_digits("gust_metres_per_second", metres, strlen(metres));
}

static void list_types(void)
{
    for (int i = 0; i < GUST_TYPES; i++) {
        if (!as_json) {
            puts(gust_types[i]);
            continue;
        }
        json_object(NULL);
        json_number("row", i);
        json_word("type", gust_types[i]);
        json_close();
    }
}

static int answer(gust_question *q)
{
    static const char *const options[GUST_INPUTS] = {"--type", "--height", "--mass", "--acceleration", "--speed"};
    for (int i = 0; i < GUST_INPUTS; i++)
        if (q->words[i] == NULL)
            return trouble(options[i], "give --type, --height, --mass, --acceleration and --speed; --help tells more");
    int wrong = gust_understand(q);
    if (wrong != GUST_INPUTS)
        return trouble(options[wrong], "%s", gust_wants[wrong]);
    esk_gust_answer a = gust_ask(q);
    if (a.code != ESK_ACCEPTED)
        return refuse_plain(NULL, A_FIELD, a.code, gust_because(q));
    if (as_json) {
        json_object(NULL);
        json_bool("accepted", 1);
        json_number("code", a.code);
        json_gust(q, a);
        json_close();
        return FINE;
    }
    char metres[GUST_ROOM];
    gust_metres(a.gust, metres);
    printf("%s m/s\n", metres);
    return FINE;
}

static int run(int count, char **words)
{
    gust_question q = {{NULL, NULL, NULL, NULL, NULL}, 0, 0, 0, 0, 0};
    const char *file = NULL;
    int lists = 0;
    const option known[] = {VALUE_OPTION("--type", NULL, &q.words[TYPE]),
                            VALUE_OPTION("--height", NULL, &q.words[HEIGHT]),
                            VALUE_OPTION("--mass", NULL, &q.words[MASS]),
                            VALUE_OPTION("--acceleration", NULL, &q.words[ACCELERATION]),
                            VALUE_OPTION("--speed", NULL, &q.words[SPEED]),
                            VALUE_OPTION("--csv", NULL, &file),
                            SET_OPTION("--list", &lists)};
    if (take_options(&count, words, known, OPTIONS(known)) != FINE)
        return TROUBLE;
    int asks = 0;
    for (int i = 0; i < GUST_INPUTS; i++)
        asks |= q.words[i] != NULL;
    if (count > 0)
        return trouble(words[0], "gust takes options alone; --help tells more");
    if ((file != NULL) + lists + asks > 1)
        return trouble(NULL, "one aircraft, or --csv, or --list: not two of them");
    if (lists) {
        list_types();
        return FINE;
    }
    return file != NULL ? gust_table(file) : answer(&q);
}

const subcommand gust_subcommand = {
    "gust",
    "--type TYPE --height FEET --mass KILOGRAMS\n"
    "          --acceleration THOUSANDTHS --speed KNOTS | --csv FILE | --list",
    "Works out the gust that an aircraft met from its acceleration",
    "  --type TYPE         the aircraft, as the table of the AAA specification names it:\n"
    "                      B737-300, KingAir-100\n"
    "  --height FEET       -1000 to 50000\n"
    "  --mass KILOGRAMS    1 to 500000\n"
    "  --acceleration N    its greatest distance from 1 g, in thousandths of g, 0 to 5000\n"
    "  --speed KNOTS       calibrated airspeed, 1 to 500\n"
    "  --csv FILE          a table instead: a line of names, of which type, height, mass,\n"
    "                      acceleration and speed are needed, in any order, and then a\n"
    "                      line for each aircraft; the lines come back with the gust\n"
    "                      behind them, in metres a second. - is standard input. A line\n"
    "                      that is refused comes back without a gust, one that is not\n"
    "                      understood is left out; each is told with its number\n"
    "  --list              the types\n"
    "\n"
    "The derived equivalent gust is told in metres a second, with a tenth: 39.6 m/s.\n"
    "One below 0 or above 79.9 m/s is refused, as a report could not hold it.\n",
    run,
    0,
};
