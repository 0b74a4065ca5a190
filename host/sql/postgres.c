/*
 * postgres.c: the SQL functions of calls.h as an extension of PostgreSQL: CREATE EXTENSION eskelvor. What each takes and
 * gives in SQL is in eskelvor--1.0.sql; NULL in any place gives NULL, since they are STRICT.
 */
#include "postgres.h"

#include "fmgr.h"
#include "utils/builtins.h"

#include "calls.h"

PG_MODULE_MAGIC;

enum { MOST_VALUES = 6 };

/* A text or a bytea as its bytes: both are held alike. */
static void
take_bytes(struct varlena *from, sql_value *to)
{
	to->bytes = (const uint8_t *) VARDATA_ANY(from);
	to->length = VARSIZE_ANY_EXHDR(from);
}

/* A refusal is an error of its statement, which changes nothing then. */
static void
refuse(const sql_answer *answer)
{
	ereport(ERROR, (errcode(ERRCODE_INVALID_TEXT_REPRESENTATION), errmsg("%s", answer->text)));
}

static Datum
run(FunctionCallInfo fcinfo, const sql_call *call)
{
	sql_value	given[MOST_VALUES];
	sql_answer	answer;

	for (int i = 0; call->takes[i] != 0; i++)
		if (call->takes[i] == 't')
			take_bytes(PG_GETARG_VARLENA_PP(i), &given[i]);
		else
			given[i].number = PG_GETARG_INT32(i);
	sql_run(call, given, &answer);
	switch (answer.kind)
	{
		case GIVES_NULL:
			PG_RETURN_NULL();
		case GIVES_NUMBER:
			PG_RETURN_INT32(answer.number);
		case GIVES_YES_OR_NO:
			PG_RETURN_BOOL(answer.number != 0);
		case REFUSES:
			refuse(&answer);
		case GIVES_TEXT:
			break;
	}
	PG_RETURN_TEXT_P(cstring_to_text_with_len(answer.text, answer.length));
}

/* A function that CREATE FUNCTION finds by its name. */
#define FUNCTION(name) \
	PG_FUNCTION_INFO_V1(name); \
	Datum name(PG_FUNCTION_ARGS) \
	{ \
		static const sql_call *call = NULL; \
		if (call == NULL) \
			call = sql_find(#name); \
		return run(fcinfo, call); \
	}

FUNCTION(eskelvor_version)
FUNCTION(eskelvor_check)
FUNCTION(eskelvor_refusal)
FUNCTION(eskelvor_accepted)
FUNCTION(eskelvor_designator)
FUNCTION(eskelvor_join)
FUNCTION(eskelvor_commute)
FUNCTION(eskelvor_section)
FUNCTION(eskelvor_reset)
FUNCTION(eskelvor_apply)
FUNCTION(eskelvor_difference)
FUNCTION(eskelvor_why)
FUNCTION(eskelvor_report_check)
FUNCTION(eskelvor_report_refusal)
FUNCTION(eskelvor_report)
FUNCTION(eskelvor_track)

/* One step of the aggregate eskelvor_joined. It is not STRICT: the first text would then become the state unchecked. NULLs
 * are passed over, and the state is NULL as long as there was no text. */
PG_FUNCTION_INFO_V1(eskelvor_joined_next);
Datum
eskelvor_joined_next(PG_FUNCTION_ARGS)
{
	uint8_t		joined[ESK_COMMAND_BYTES];
	size_t		length = 0;
	sql_value	next;
	sql_answer	answer;

	if (!PG_ARGISNULL(0))
	{
		text	   *so_far = PG_GETARG_TEXT_PP(0);

		length = VARSIZE_ANY_EXHDR(so_far);
		if (length > sizeof joined)
			ereport(ERROR, (errcode(ERRCODE_INVALID_PARAMETER_VALUE), errmsg("eskelvor_joined_next: no state of its own")));
		memcpy(joined, VARDATA_ANY(so_far), length);
	}
	if (!PG_ARGISNULL(1))
	{
		take_bytes(PG_GETARG_VARLENA_PP(1), &next);
		if (!sql_join_next(joined, &length, &next, &answer))
			refuse(&answer);
	}
	if (length == 0)
		PG_RETURN_NULL();
	PG_RETURN_TEXT_P(cstring_to_text_with_len((char *) joined, length));
}
