/*-------------------------------------------------------------------------
 *
 * sql.c
 *	  The functions of readers and of operators.
 *
 *-------------------------------------------------------------------------
 */
#include "postgres.h"

#include "access/htup_details.h"
#include "access/relation.h"
#include "access/xact.h"
#include "access/xlog.h"
#include "catalog/pg_authid.h"
#include "catalog/pg_inherits.h"
#include "catalog/pg_type.h"
#include "commands/trigger.h"
#include "fmgr.h"
#include "miscadmin.h"
#include "portability/instr_time.h"
#include "storage/ipc.h"
#include "utils/acl.h"
#include "utils/array.h"
#include "utils/builtins.h"
#include "utils/inval.h"
#include "utils/lsyscache.h"
#include "utils/rel.h"
#include "utils/syscache.h"

#include "changes.h"
#include "stripes.h"

/* Clocks of two machines differ in rate by a quarter at most. */
#define DRIFT_DIVISOR 4

/* The keys by which a reader wants to keep rows of a table. */
typedef struct Wanted
{
	uint64	   *keys;			/* the marks of the cluster and of the table, and its stripes */
	int			count;
} Wanted;

/* Whether the relation has this trigger of a table with this mark, which always fires. */
static bool
has_trigger(Relation relation, const char *name, uint32 mark)
{
	for (int i = 0; relation->trigdesc && i < relation->trigdesc->numtriggers; i++)
	{
		const Trigger *trigger = &relation->trigdesc->triggers[i];

		if (trigger->tgenabled == TRIGGER_FIRES_ALWAYS && strcmp(trigger->tgname, name) == 0 &&
			krl_is_trigger_function(trigger->tgfoid))
		{
			KrlStripes	stripes;

			krl_read_stripes(trigger, &stripes);
			return stripes.mark == mark;
		}
	}
	return false;
}

/*
 * Rows of a foreign table change elsewhere, those of an unlogged one go with a
 * crash, and row-level security shows each role others.
 */
static bool
is_plain(Relation relation)
{
	char		kind = relation->rd_rel->relkind;

	return (kind == RELKIND_RELATION || kind == RELKIND_PARTITIONED_TABLE) &&
		relation->rd_rel->relpersistence == RELPERSISTENCE_PERMANENT &&
		!relation->rd_rel->relrowsecurity;
}

/* Whether each change of the relation is noted, and all its readers see the same rows. */
static bool
is_guarded(Oid oid, uint32 mark)
{
	Relation	relation = try_relation_open(oid, AccessShareLock);
	bool		result;

	if (!relation)
		return false;
	result = has_trigger(relation, KRL_ROW_TRIGGER, mark) &&
		has_trigger(relation, KRL_TRUNCATE_TRIGGER, mark) && is_plain(relation);
	relation_close(relation, AccessShareLock);
	return result;
}

/* The same of the table, and of its partitions and the tables that inherit from it. */
static bool
is_table_guarded(Oid table, uint32 mark)
{
	List	   *relations = list_make1_oid(table);
	ListCell   *cell;

	if (has_subclass(table))
		relations = find_all_inheritors(table, AccessShareLock, NULL);
	foreach(cell, relations)
		if (!is_guarded(lfirst_oid(cell), mark))
			return false;
	return true;
}

static void
require_select(Oid table)
{
	AclResult	result = pg_class_aclcheck(table, GetUserId(), ACL_SELECT);

	if (result != ACLCHECK_OK)
		aclcheck_error(result, get_relkind_objtype(get_rel_relkind(table)), get_rel_name(table));
}

/* Whether PostgreSQL would admit the role of this session again. */
static bool
may_connect(void)
{
	Oid			role = GetSessionUserId();
	HeapTuple	tuple;
	bool		may_log_in;

	AcceptInvalidationMessages();
	tuple = SearchSysCache1(AUTHOID, ObjectIdGetDatum(role));
	if (!HeapTupleIsValid(tuple))
		return false;
	may_log_in = ((Form_pg_authid) GETSTRUCT(tuple))->rolcanlogin;
	ReleaseSysCache(tuple);
	return may_log_in &&
		DatumGetBool(DirectFunctionCall3(has_database_privilege_id_id, ObjectIdGetDatum(role),
										 ObjectIdGetDatum(MyDatabaseId),
										 CStringGetTextDatum("CONNECT")));
}

static Wanted
read_wanted(int32 mark, ArrayType *array)
{
	Wanted		wanted;
	Datum	   *stripes;
	bool	   *nulls;
	int			nstripes;

	if (mark < 0 || mark >= krl_stripes)
		ereport(ERROR,
				(errcode(ERRCODE_INVALID_PARAMETER_VALUE),
				 errmsg("there is no table whose mark is %d", mark),
				 errdetail("krl.stripes is %d.", krl_stripes)));
	deconstruct_array(array, INT4OID, sizeof(int32), true, TYPALIGN_INT, &stripes, &nulls,
					  &nstripes);
	wanted.keys = palloc(sizeof(uint64) * (nstripes + 2));
	wanted.keys[0] = KRL_CLUSTER_MARK;
	wanted.keys[1] = mark;
	wanted.count = 2;
	for (int i = 0; i < nstripes; i++)
	{
		int32		stripe = nulls[i] ? -1 : DatumGetInt32(stripes[i]);

		if (stripe < 0 || stripe >= krl_stripes - mark - 1)
			ereport(ERROR,
					(errcode(ERRCODE_INVALID_PARAMETER_VALUE),
					 errmsg("there is no stripe %d of a table whose mark is %d", stripe, mark),
					 errdetail("krl.stripes is %d.", krl_stripes)));
		wanted.keys[wanted.count++] = (uint64) mark + 1 + stripe;
	}
	return wanted;
}

static bool
has_any_notice(const Wanted *wanted)
{
	for (int i = 0; i < wanted->count; i++)
		if (krl_has_notice(wanted->keys[i]))
			return true;
	return false;
}

static bool
has_same_counts(const Wanted *wanted, const uint32 *counts)
{
	pg_memory_barrier();		/* after the look at the notices */
	for (int i = 0; i < wanted->count; i++)
		if (krl_kept_count(wanted->keys[i]) != counts[i])
			return false;
	return true;
}

/*
 * Whether no transaction that may still commit has given notice of one of the
 * keys.  They count as kept from before the look at the notices.  If one was
 * taken back after that, the next writer may have found that it is not kept.
 */
static bool
are_quiet(const Wanted *wanted)
{
	uint32	   *counts = palloc(sizeof(uint32) * wanted->count);

	for (int i = 0; i < wanted->count; i++)
		counts[i] = krl_note_kept(wanted->keys[i]);
	pg_memory_barrier();
	return !has_any_notice(wanted) && has_same_counts(wanted, counts);
}

/* Whether readers may keep rows that they hold by a mark of this nonce. */
static bool
is_open(uint64 nonce)
{
	return krl_shared && !RecoveryInProgress() &&
		!pg_atomic_read_u32(&krl_shared->is_closed) &&
		nonce != 0 && nonce == pg_atomic_read_u64(&krl_shared->nonce);
}

/*
 * Whether the next statement sees just what is committed as it begins.  The
 * snapshot of a transaction may be older than the look at the notices.
 */
static bool
is_next_snapshot_new(void)
{
	return !IsolationUsesXactSnapshot() && !krl_has_changed();
}

PG_FUNCTION_INFO_V1(krl_quiet);

/* krl.quiet(nonce bigint, relation regclass, mark integer, stripes integer[]) */
Datum
krl_quiet(PG_FUNCTION_ARGS)
{
	uint64		nonce = (uint64) PG_GETARG_INT64(0);
	Oid			table = PG_GETARG_OID(1);
	int32		mark = PG_GETARG_INT32(2);
	Wanted		wanted = read_wanted(mark, PG_GETARG_ARRAYTYPE_P(3));

	require_select(table);
	/* The triggers and the role are looked at after the notices: who changes one gives notice first. */
	PG_RETURN_BOOL(is_open(nonce) && is_next_snapshot_new() &&
				   is_table_guarded(table, mark) && are_quiet(&wanted) &&
				   is_table_guarded(table, mark) && may_connect());
}

PG_FUNCTION_INFO_V1(krl_addresses);

/* krl.servers() */
Datum
krl_addresses(PG_FUNCTION_ARGS)
{
	krl_require_shared();
	PG_RETURN_TEXT_P(cstring_to_text(krl_server_address()));
}

PG_FUNCTION_INFO_V1(krl_nonce);

/* krl.nonce() */
Datum
krl_nonce(PG_FUNCTION_ARGS)
{
	krl_require_shared();
	PG_RETURN_INT64((int64) pg_atomic_read_u64(&krl_shared->nonce));
}

PG_FUNCTION_INFO_V1(krl_make);

/* krl.make(first integer, keys integer) */
Datum
krl_make(PG_FUNCTION_ARGS)
{
	int32		first = PG_GETARG_INT32(0);
	int32		count = PG_GETARG_INT32(1);

	krl_require_shared();
	if (first < 0 || count < 1 || count > krl_stripes - first)
		ereport(ERROR,
				(errcode(ERRCODE_CONFIGURATION_LIMIT_EXCEEDED),
				 errmsg("%d keys after %d are more than krl.stripes, which is %d",
						count, first, krl_stripes),
				 errhint("Set krl.stripes to more, and restart the server; or cache the table with "
						 "fewer stripes.")));
	krl_make_rows(first, count);
	krl_store_note_rows((uint64) first + count);
	PG_RETURN_VOID();
}

/* By the end of this call the lease of each reader has ended, whatever is done to the time of day. */
static void
await_leases(void)
{
	double		longest = krl_lease + krl_lease / DRIFT_DIVISOR + 100;
	instr_time	begun;
	instr_time	passed;

	INSTR_TIME_SET_CURRENT(begun);
	for (;;)
	{
		double		left;

		INSTR_TIME_SET_CURRENT(passed);
		INSTR_TIME_SUBTRACT(passed, begun);
		left = longest - INSTR_TIME_GET_MILLISEC(passed);
		if (left <= 0)
			return;
		krl_wait((long) left + 1);
	}
}

/* The cluster was not suspended: transactions still wait for krl, so readers may keep rows again. */
static void
open_again(int code, Datum arg)
{
	krl_let_server_run();
	pg_atomic_write_u32(&krl_shared->is_closed, false);
}

/* The cluster was not resumed: transactions commit without krl as before. */
static void
suspend_again(int code, Datum arg)
{
	pg_atomic_write_u32(&krl_shared->is_suspended, true);
}

PG_FUNCTION_INFO_V1(krl_suspend);

/* krl.suspend(krl_server_is_stopped boolean) */
Datum
krl_suspend(PG_FUNCTION_ARGS)
{
	krl_require_shared();
	if (!PG_GETARG_BOOL(0))
		ereport(ERROR,
				(errcode(ERRCODE_OBJECT_NOT_IN_PREREQUISITE_STATE),
				 errmsg("krl's server must be stopped before the cluster commits without it"),
				 errhint("Stop it for good, and call krl.suspend(true).")));
	krl_lock_operators();
	if (pg_atomic_read_u32(&krl_shared->is_suspended))
		PG_RETURN_VOID();
	pg_atomic_write_u32(&krl_shared->is_closed, true);
	PG_ENSURE_ERROR_CLEANUP(open_again, (Datum) 0);
	{
		krl_stop_server();
		await_leases();
		krl_store_suspend();
	}
	PG_END_ENSURE_ERROR_CLEANUP(open_again, (Datum) 0);
	pg_atomic_write_u64(&krl_shared->rows_made, 0);
	pg_atomic_write_u32(&krl_shared->is_suspended, true);
	krl_let_server_run();
	krl_join_again();
	PG_RETURN_VOID();
}

PG_FUNCTION_INFO_V1(krl_resume);

/* krl.resume() */
Datum
krl_resume(PG_FUNCTION_ARGS)
{
	uint64		mark = KRL_CLUSTER_MARK;

	krl_require_shared();
	krl_lock_operators();
	if (!pg_atomic_read_u32(&krl_shared->is_suspended))
		PG_RETURN_VOID();
	/* Only while the cluster is suspended, it takes another store. */
	krl_await_first_worker();
	/* First transactions wait for krl, then all is taken back, and then readers keep rows again. */
	pg_atomic_write_u32(&krl_shared->is_suspended, false);
	PG_ENSURE_ERROR_CLEANUP(suspend_again, (Datum) 0);
	{
		krl_recall(&mark, 1);
		krl_store_resume();
	}
	PG_END_ENSURE_ERROR_CLEANUP(suspend_again, (Datum) 0);
	pg_atomic_write_u32(&krl_shared->is_closed, false);
	PG_RETURN_VOID();
}
