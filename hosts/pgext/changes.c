/*-------------------------------------------------------------------------
 *
 * changes.c
 *	  What a transaction changes, and what is done about it before it commits.
 *
 *-------------------------------------------------------------------------
 */
#include "postgres.h"

#include "access/xact.h"
#include "commands/trigger.h"
#include "fmgr.h"
#include "miscadmin.h"
#include "utils/hsearch.h"
#include "utils/memutils.h"
#include "utils/rel.h"

#include "changes.h"
#include "stripes.h"

/* A key of krl that this transaction changes, with the mark of its table. */
typedef struct Change
{
	uint64		key;
	uint64		mark;
} Change;

/*
 * What this transaction changes, in its own memory: stripes, and the marks of
 * tables of which it may change everything.  What a subtransaction changed that
 * was rolled back is among them: it is taken back in vain.
 */
static HTAB *changed = NULL;

/* Notices are given, or none was needed: what other libraries change before the commit comes too late. */
static bool is_committing = false;

static void
note_key(uint64 key, uint64 mark)
{
	HASHCTL		how = {0};
	Change	   *change;

	if (is_committing)
		ereport(ERROR,
				(errcode(ERRCODE_INVALID_TRANSACTION_STATE),
				 errmsg("a cached table cannot be changed while the transaction commits")));
	if (!changed)
	{
		how.keysize = sizeof(uint64);
		how.entrysize = sizeof(Change);
		how.hcxt = TopTransactionContext;
		changed = hash_create("krl: changed keys", 64, &how,
							  HASH_ELEM | HASH_BLOBS | HASH_CONTEXT);
	}
	change = hash_search(changed, &key, HASH_ENTER, NULL);
	change->mark = mark;
}

/* This transaction may change everything that readers keep by this mark. */
void
krl_note_mark(uint64 mark)
{
	note_key(mark, mark);
}

/* Whether this transaction has changed what readers keep: it sees what may never be committed. */
bool
krl_has_changed(void)
{
	return changed != NULL;
}

PG_FUNCTION_INFO_V1(krl_changed);

/* The trigger of a cached table: after each row, and after TRUNCATE. */
Datum
krl_changed(PG_FUNCTION_ARGS)
{
	TriggerData *data = (TriggerData *) fcinfo->context;
	TupleDesc	desc;
	KrlStripes	stripes;

	if (!CALLED_AS_TRIGGER(fcinfo))
		ereport(ERROR,
				(errcode(ERRCODE_E_R_I_E_TRIGGER_PROTOCOL_VIOLATED),
				 errmsg("function \"%s\" was not called by the trigger manager", "krl.changed")));
	krl_require_shared();
	krl_read_stripes(data->tg_trigger, &stripes);
	if (TRIGGER_FIRED_FOR_STATEMENT(data->tg_event))
	{
		krl_note_mark(stripes.mark);
		return PointerGetDatum(NULL);
	}
	desc = RelationGetDescr(data->tg_relation);
	note_key(krl_stripe_of_row(&stripes, data->tg_trigtuple, desc), stripes.mark);
	if (TRIGGER_FIRED_BY_UPDATE(data->tg_event))
		note_key(krl_stripe_of_row(&stripes, data->tg_newtuple, desc), stripes.mark);
	return PointerGetDatum(NULL);
}

static int
compare_changes(const void *a, const void *b)
{
	uint64		x = ((const Change *) a)->key;
	uint64		y = ((const Change *) b)->key;

	return x < y ? -1 : x > y;
}

/* The changes of this transaction, in the order of their keys: so those of a table begin with its mark. */
static Change *
sorted_changes(int count)
{
	Change	   *changes = palloc(sizeof(Change) * count);
	Change	   *next = changes;
	HASH_SEQ_STATUS scan;
	Change	   *change;

	hash_seq_init(&scan, changed);
	while ((change = hash_seq_search(&scan)) != NULL)
		*next++ = *change;
	qsort(changes, count, sizeof(Change), compare_changes);
	return changes;
}

/* Adds the keys of these changes of one table, or its mark in their place.  Returns how many these are. */
static int
add_table(const Change *changes, int count, uint64 *keys)
{
	if (changes[0].key == changes[0].mark || count > krl_recall_limit)
	{
		keys[0] = changes[0].mark;
		return 1;
	}
	for (int i = 0; i < count; i++)
		keys[i] = changes[i].key;
	return count;
}

/* The keys that this transaction changes, in ascending order. */
static uint64 *
changed_keys(int *nkeys)
{
	int			count = (int) hash_get_num_entries(changed);
	Change	   *changes = sorted_changes(count);
	uint64	   *keys = palloc(sizeof(uint64) * count);

	*nkeys = 0;
	for (int i = 0, end; i < count; i = end)
	{
		for (end = i + 1; end < count && changes[end].mark == changes[i].mark; end++)
			;
		*nkeys += add_table(changes + i, end - i, keys + *nkeys);
	}
	pfree(changes);
	return keys;
}

/*
 * Leaves only the keys that readers may keep, and returns how many these are.
 * Before the cluster's mark has the nonce of this start, the counts do not show
 * what was kept before the start.
 */
static int
keep_kept(uint64 *keys, int nkeys)
{
	bool		are_known = pg_atomic_read_u64(&krl_shared->nonce) != 0;
	int			kept = 0;

	for (int i = 0; i < nkeys; i++)
		if (!are_known || krl_is_kept(keys[i]))
			keys[kept++] = keys[i];
	return kept;
}

/* Takes what was changed back from all caches, unless the cluster is suspended. */
static void
take_back(uint64 *keys, int nkeys)
{
	int			kept;

	if (pg_atomic_read_u32(&krl_shared->is_suspended))
		return;
	kept = keep_kept(keys, nkeys);
	if (kept > 0)
		krl_recall(keys, kept);
	if (kept < nkeys)
		pg_atomic_fetch_add_u64(&krl_shared->skipped, nkeys - kept);
	/* The counts rise after the keys were taken back. */
	pg_memory_barrier();
	for (int i = 0; i < kept; i++)
		krl_note_recalled(keys[i]);
}

/*
 * Takes everything back from all caches at once.  Until the transaction ends,
 * no reader begins to keep a row.
 */
void
krl_take_all_back(void)
{
	uint64		mark = KRL_CLUSTER_MARK;

	krl_give_notice(mark);
	pg_memory_barrier();
	take_back(&mark, 1);
}

/* Nothing of the transaction may be visible before it is on the disk: readers would keep it. */
static void
before_commit(void)
{
	int			nkeys;
	uint64	   *keys = changed_keys(&nkeys);

	ForceSyncCommit();
	for (int i = 0; i < nkeys; i++)
		krl_give_notice(keys[i]);
	/* From here on no reader begins to keep a row of these. */
	pg_memory_barrier();
	take_back(keys, nkeys);
	pfree(keys);
}

static void
on_transaction(XactEvent event, void *arg)
{
	switch (event)
	{
		case XACT_EVENT_PRE_COMMIT:
		case XACT_EVENT_PRE_PREPARE:
			is_committing = true;
			if (krl_has_changed())
				before_commit();
			break;
		case XACT_EVENT_ABORT:
			krl_drop_request();
			/* FALLTHROUGH */
		case XACT_EVENT_COMMIT:
		case XACT_EVENT_PREPARE:
			is_committing = false;
			changed = NULL;
			break;
		default:
			break;
	}
}

void
krl_changes_init(void)
{
	RegisterXactCallback(on_transaction, NULL);
}
