/*-------------------------------------------------------------------------
 *
 * stripes.c
 *	  The stripe of a row.
 *
 * An integer key belongs to the stripe of its remainder, so a range of keys is
 * a range of stripes.  Other keys belong to the stripe of a hash of the texts
 * of their columns.
 *
 *-------------------------------------------------------------------------
 */
#include "postgres.h"

#include "catalog/namespace.h"
#include "catalog/pg_trigger.h"
#include "catalog/pg_type.h"
#include "executor/spi.h"
#include "fmgr.h"
#include "utils/array.h"
#include "utils/builtins.h"
#include "utils/lsyscache.h"

#include "stripes.h"

/* FNV-1a, of 32 bits. */
#define HASH_OFFSET 2166136261u
#define HASH_PRIME 16777619u

/* Stands between the texts of two columns. */
#define SEPARATOR 0x1f

/* The first argument of a trigger that is a column of the key. */
#define FIRST_COLUMN 3

/* Whether this is krl.changed, by which the triggers of cached tables note changes. */
bool
krl_is_trigger_function(Oid function)
{
	const char *name = get_func_name(function);

	return name && strcmp(name, "changed") == 0 &&
		get_func_namespace(function) == get_namespace_oid("krl", true);
}

/* Whether the trigger finds the stripes of rows by this column. */
bool
krl_is_key_column(const Trigger *trigger, const char *column)
{
	if (!TRIGGER_FOR_ROW(trigger->tgtype) || !krl_is_trigger_function(trigger->tgfoid))
		return false;
	for (int i = FIRST_COLUMN; i < trigger->tgnargs; i++)
		if (strcmp(trigger->tgargs[i], column) == 0)
			return true;
	return false;
}

/* Returns the stripe of a key that has these texts, which are the same in each session. */
static uint32
stripe_of_texts(char **texts, int ntexts, uint32 nstripes)
{
	uint32		hash = HASH_OFFSET;

	for (int i = 0; i < ntexts; i++)
	{
		if (i > 0)
			hash = (hash ^ SEPARATOR) * HASH_PRIME;
		for (const char *at = texts[i]; *at; at++)
			hash = (hash ^ (unsigned char) *at) * HASH_PRIME;
	}
	return hash % nstripes;
}

static uint32
stripe_of_integer(int64 key, uint32 nstripes)
{
	int64		rest = key % (int64) nstripes;

	return (uint32) (rest < 0 ? rest + nstripes : rest);
}

/*
 * Reads the arguments of a trigger: the mark of the table, how many stripes it
 * has, "remainder" or "hash", and the columns of the key.
 */
void
krl_read_stripes(const Trigger *trigger, KrlStripes *stripes)
{
	if (trigger->tgnargs <= FIRST_COLUMN || trigger->tgnargs > FIRST_COLUMN + INDEX_MAX_KEYS)
		ereport(ERROR,
				(errcode(ERRCODE_OBJECT_NOT_IN_PREREQUISITE_STATE),
				 errmsg("trigger \"%s\" does not have the arguments of krl.cache",
						trigger->tgname)));
	stripes->mark = strtoul(trigger->tgargs[0], NULL, 10);
	stripes->count = strtoul(trigger->tgargs[1], NULL, 10);
	stripes->by_remainder = strcmp(trigger->tgargs[2], "remainder") == 0;
	stripes->columns = trigger->tgargs + FIRST_COLUMN;
	stripes->ncolumns = trigger->tgnargs - FIRST_COLUMN;
	if (stripes->count < 1 || stripes->count >= (uint32) krl_stripes ||
		stripes->mark >= (uint32) krl_stripes - stripes->count)
		ereport(ERROR,
				(errcode(ERRCODE_CONFIGURATION_LIMIT_EXCEEDED),
				 errmsg("the stripes of trigger \"%s\" are beyond krl.stripes", trigger->tgname),
				 errhint("Set krl.stripes to %lu at least, and restart the server.",
						 (unsigned long) stripes->mark + 1 + stripes->count)));
}

/* Whether equal values of the column have one text, and the same one in each session. */
static bool
has_one_text(Form_pg_attribute column)
{
	switch (column->atttypid)
	{
		case INT2OID:
		case INT4OID:
		case INT8OID:
		case UUIDOID:
			return true;
		case TEXTOID:
		case VARCHAROID:
			return get_collation_isdeterministic(column->attcollation);
		default:
			return false;
	}
}

static int64
integer_of(Datum value, Oid type)
{
	switch (type)
	{
		case INT2OID:
			return DatumGetInt16(value);
		case INT4OID:
			return DatumGetInt32(value);
		case INT8OID:
			return DatumGetInt64(value);
		default:
			ereport(ERROR,
					(errcode(ERRCODE_DATATYPE_MISMATCH),
					 errmsg("the key of the cached table is no longer an integer"),
					 errhint("Call krl.uncache and krl.cache.")));
	}
}

/* Returns the key of krl for a row of a table with these stripes. */
uint64
krl_stripe_of_row(const KrlStripes *stripes, HeapTuple row, TupleDesc desc)
{
	uint64		first = (uint64) stripes->mark + 1;
	char	   *texts[INDEX_MAX_KEYS];

	for (int i = 0; i < stripes->ncolumns; i++)
	{
		int			number = SPI_fnumber(desc, stripes->columns[i]);
		Form_pg_attribute column;
		Datum		value;
		bool		isnull;

		if (number <= 0)
			ereport(ERROR,
					(errcode(ERRCODE_UNDEFINED_COLUMN),
					 errmsg("the cached table has no column \"%s\"", stripes->columns[i]),
					 errhint("Call krl.uncache and krl.cache.")));
		column = TupleDescAttr(desc, number - 1);
		value = SPI_getbinval(row, desc, number, &isnull);
		if (isnull)
			return first;		/* no reader asks for such a row */
		if (stripes->by_remainder)
			return first + stripe_of_integer(integer_of(value, column->atttypid), stripes->count);
		if (!has_one_text(column))
			ereport(ERROR,
					(errcode(ERRCODE_DATATYPE_MISMATCH),
					 errmsg("column \"%s\" of the cached table has a type that no key may have",
							stripes->columns[i]),
					 errhint("Call krl.uncache.")));
		texts[i] = SPI_getvalue(row, desc, number);
	}
	return first + stripe_of_texts(texts, stripes->ncolumns, stripes->count);
}

PG_FUNCTION_INFO_V1(krl_stripe);

/* krl.stripe(stripes integer, VARIADIC key text[]) */
Datum
krl_stripe(PG_FUNCTION_ARGS)
{
	int32		nstripes = PG_GETARG_INT32(0);
	Datum	   *elements;
	bool	   *nulls;
	int			nelements;
	char	   *texts[INDEX_MAX_KEYS];

	deconstruct_array(PG_GETARG_ARRAYTYPE_P(1), TEXTOID, -1, false, TYPALIGN_INT,
					  &elements, &nulls, &nelements);
	if (nstripes < 1 || nstripes > KRL_MAX_STRIPES)
		ereport(ERROR,
				(errcode(ERRCODE_INVALID_PARAMETER_VALUE),
				 errmsg("a table has 1 to %d stripes, and not %d", KRL_MAX_STRIPES, nstripes)));
	if (nelements < 1 || nelements > INDEX_MAX_KEYS)
		ereport(ERROR,
				(errcode(ERRCODE_INVALID_PARAMETER_VALUE),
				 errmsg("a key has 1 to %d columns, and not %d", INDEX_MAX_KEYS, nelements)));
	for (int i = 0; i < nelements; i++)
	{
		if (nulls[i])
			PG_RETURN_INT32(0);
		texts[i] = TextDatumGetCString(elements[i]);
	}
	PG_RETURN_INT32(stripe_of_texts(texts, nelements, nstripes));
}
