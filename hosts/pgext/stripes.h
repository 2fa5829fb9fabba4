/*-------------------------------------------------------------------------
 *
 * stripes.h
 *	  The stripes of a cached table.
 *
 *-------------------------------------------------------------------------
 */
#ifndef KRL_STRIPES_H
#define KRL_STRIPES_H

#include "access/htup.h"
#include "access/tupdesc.h"
#include "utils/reltrigger.h"

#include "krl_pg.h"

/* The triggers of a cached table, and of its partitions: the second one is of statements. */
#define KRL_ROW_TRIGGER "krl_changed"
#define KRL_TRUNCATE_TRIGGER "krl_truncated"

/* As the arguments of the triggers have them. */
typedef struct KrlStripes
{
	uint32		mark;
	uint32		count;			/* their keys follow that of the mark */
	bool		by_remainder;	/* of a key that is one integer */
	char	  **columns;		/* of the key */
	int			ncolumns;
} KrlStripes;

extern bool krl_is_trigger_function(Oid function);
extern bool krl_is_key_column(const Trigger *trigger, const char *column);
extern void krl_read_stripes(const Trigger *trigger, KrlStripes *stripes);
extern uint64 krl_stripe_of_row(const KrlStripes *stripes, HeapTuple row, TupleDesc desc);

#endif							/* KRL_STRIPES_H */
