/* The SQL functions of host/sql, part of the program: a database's own checks call them. */
#ifdef DESK_SQLITE
#define SQLITE_CORE
#include "../sql/calls.c"
#include "../sql/sqlite.c"
#endif

typedef int sql_functions_are_none; /* C has no empty file */
