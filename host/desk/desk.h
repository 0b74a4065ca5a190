/* desk.h: the desk program's subcommands, and the exit statuses that they give. */
#ifndef DESK_H
#define DESK_H

/* Exit statuses. Of several texts or files the highest counts. */
enum {
    FINE = 0,    /* accepted */
    REFUSED = 1, /* looked at, and refused with a code of eskelvor.h */
    TROUBLE = 2  /* could not be looked at or written: usage, files, a full disk */
};

/* A subcommand. `run` is handed the words behind its name and gives the exit status. */
typedef struct subcommand {
    const char *name;
    const char *usage;   /* the words that it takes */
    const char *summary; /* one line */
    const char *help;    /* the rest of its --help */
    int (*run)(int count, char **words);
    int reads_json; /* behind its name --json is an option of its own: what it reads */
} subcommand;

extern const subcommand report_subcommand, track_subcommand, check_subcommand, explain_subcommand, section_subcommand,
    compose_subcommand, join_subcommand, commute_subcommand, apply_subcommand, config_subcommand, diff_subcommand,
    decide_subcommand, why_subcommand, packed_subcommand, gust_subcommand, status_subcommand, board_subcommand,
    journal_subcommand, night_subcommand, help_subcommand;

/* The subcommand of a name, or NULL; and what the program, or a subcommand, takes and tells, on standard output. */
const subcommand *find_subcommand(const char *name);
void help(void);
void help_on(const subcommand *s);

static inline int worse(int one, int other)
{
    return one > other ? one : other;
}

#endif
