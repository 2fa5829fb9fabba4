/*-------------------------------------------------------------------------
 *
 * definitions.c
 *	  Changes of the definition of cached tables.
 *
 * A transaction that changes the definition of a cached table, or of one of
 * its partitions, takes the mark of the table, and so all its rows back from
 * all caches: it may have rewritten the table, or have changed which rows
 * belong to it or who may see them.  One that changes what any tables may
 * depend on, such as a schema, a type, a role or the name of a database, takes
 * the mark of the cluster.
 *
 *-------------------------------------------------------------------------
 */
#include "postgres.h"

#include "access/genam.h"
#include "access/htup_details.h"
#include "access/relation.h"
#include "access/table.h"
#include "access/xact.h"
#include "catalog/indexing.h"
#include "catalog/namespace.h"
#include "catalog/objectaccess.h"
#include "catalog/pg_authid.h"
#include "catalog/pg_class.h"
#include "catalog/pg_database.h"
#include "catalog/pg_inherits.h"
#include "catalog/pg_namespace.h"
#include "catalog/pg_trigger.h"
#include "commands/defrem.h"
#include "commands/extension.h"
#include "fmgr.h"
#include "miscadmin.h"
#include "nodes/parsenodes.h"
#include "tcop/utility.h"
#include "utils/acl.h"
#include "utils/fmgroids.h"
#include "utils/lsyscache.h"
#include "utils/rel.h"
#include "utils/syscache.h"

#include "changes.h"
#include "definitions.h"
#include "stripes.h"

static object_access_hook_type next_object_access = NULL;
static ProcessUtility_hook_type next_process_utility = NULL;

/* Reads the mark of the table that has this trigger, if it is one of those of krl.cache. */
static bool
read_mark(HeapTuple tuple, TupleDesc desc, uint64 *mark)
{
	Form_pg_trigger trigger = (Form_pg_trigger) GETSTRUCT(tuple);
	bool		isnull;
	Datum		arguments;

	if (trigger->tgnargs < 1 || !krl_is_trigger_function(trigger->tgfoid))
		return false;
	/* heap_getattr() calls a function that older minor versions of PostgreSQL lack. */
	arguments = fastgetattr(tuple, Anum_pg_trigger_tgargs, desc, &isnull);
	*mark = strtoul(VARDATA_ANY(DatumGetByteaPP(arguments)), NULL, 10);
	/* krl.stripes is less than it was. */
	if (*mark >= (uint64) krl_stripes)
		*mark = KRL_CLUSTER_MARK;
	return true;
}

/* Takes the mark of each table whose trigger has this key.  Returns whether there is one. */
static bool
note_triggers(Oid index, AttrNumber attribute, Oid key)
{
	Relation	triggers = table_open(TriggerRelationId, AccessShareLock);
	bool		found = false;
	SysScanDesc scan;
	ScanKeyData by;
	HeapTuple	tuple;
	uint64		mark;

	ScanKeyInit(&by, attribute, BTEqualStrategyNumber, F_OIDEQ, ObjectIdGetDatum(key));
	scan = systable_beginscan(triggers, index, true, NULL, 1, &by);
	while (HeapTupleIsValid(tuple = systable_getnext(scan)))
	{
		if (!read_mark(tuple, RelationGetDescr(triggers), &mark))
			continue;
		krl_note_mark(mark);
		found = true;
	}
	systable_endscan(scan);
	table_close(triggers, AccessShareLock);
	return found;
}

/* If the table is cached, or is a partition of one that is, all its rows are taken back. */
static bool
note_table(Oid table)
{
	return note_triggers(TriggerRelidNameIndexId, Anum_pg_trigger_tgrelid, table);
}

/* Any cached table of this database may be changed. */
static void
note_all(void)
{
	if (OidIsValid(get_extension_oid("krl", true)))
		krl_note_mark(KRL_CLUSTER_MARK);
}

/* The same if the relation is a composite type, which columns of any table may have. */
static void
note_relation(Oid relation)
{
	if (!note_table(relation) && get_rel_relkind(relation) == RELKIND_COMPOSITE_TYPE)
		note_all();
}

/* The triggers find the columns of the key by their names. */
static void
refuse_if_key(Oid table, const char *column)
{
	Relation	relation = try_relation_open(table, AccessShareLock);

	if (!relation)
		return;
	for (int i = 0; relation->trigdesc && i < relation->trigdesc->numtriggers; i++)
		if (krl_is_key_column(&relation->trigdesc->triggers[i], column))
			ereport(ERROR,
					(errcode(ERRCODE_DEPENDENT_OBJECTS_STILL_EXIST),
					 errmsg("cannot rename or drop column \"%s\" of table \"%s\": the table is cached by it",
							column, RelationGetRelationName(relation)),
					 errhint("Call krl.uncache before.")));
	relation_close(relation, AccessShareLock);
}

/* Whether an access changes an object: a column that is added to a relation is created. */
static bool
is_change(ObjectAccessType access, Oid class, int sub)
{
	return access == OAT_DROP || access == OAT_POST_ALTER || access == OAT_TRUNCATE ||
		(access == OAT_POST_CREATE && class == RelationRelationId && sub != 0);
}

/* If an access to an object changes the definition of cached tables, their rows are taken back. */
static void
note_object(ObjectAccessType access, Oid class, Oid object, int sub, void *arg)
{
	if (!is_change(access, class, sub))
		return;
	if (class == RelationRelationId && access == OAT_DROP && sub > 0)
		refuse_if_key(object, get_attname(object, sub, false));
	if (class == TriggerRelationId)
		(void) note_triggers(TriggerOidIndexId, Anum_pg_trigger_oid, object);
	else if (class == RelationRelationId)
		note_relation(object);
	else if (class == InheritsRelationId && access == OAT_POST_ALTER && arg != NULL)
		/* A partition is attached or detached, or a child inherits or no longer does. */
		(void) note_table(((ObjectAccessPostAlter *) arg)->auxiliary_id);
	else if (class == NamespaceRelationId && access == OAT_POST_ALTER)
		/* The names of its tables may be those of others after this. */
		note_all();
	else if (class == DatabaseRelationId)
		/* Its files may be removed before the commit, which may fail. */
		krl_take_all_back();
}

static void
on_object_access(ObjectAccessType access, Oid class, Oid object, int sub, void *arg)
{
	if (next_object_access)
		next_object_access(access, class, object, sub, arg);
	if (krl_shared && IsNormalProcessingMode() && IsTransactionState())
		note_object(access, class, object, sub, arg);
}

static bool
note_name(const RangeVar *name)
{
	Oid			table = name ? RangeVarGetRelid(name, NoLock, true) : InvalidOid;

	return OidIsValid(table) && note_table(table);
}

/* A partition that is detached concurrently leaves the table in a transaction of its own. */
static void
refuse_concurrent_detach(const AlterTableStmt *statement)
{
	ListCell   *cell;

	foreach(cell, statement->cmds)
	{
		AlterTableCmd *command = lfirst_node(AlterTableCmd, cell);

		if (command->subtype != AT_DetachPartition ||
			!((PartitionCmd *) command->def)->concurrent)
			continue;
		ereport(ERROR,
				(errcode(ERRCODE_FEATURE_NOT_SUPPORTED),
				 errmsg("cannot detach a partition of cached table \"%s\" concurrently",
						statement->relation->relname),
				 errhint("Detach it without CONCURRENTLY, or call krl.uncache before.")));
	}
}

/* A reader that has lost the right to read a table keeps nothing of it any longer. */
static void
note_revoked(const GrantStmt *statement)
{
	ListCell   *cell;

	if (statement->is_grant)
		return;
	if (statement->objtype == OBJECT_TABLE && statement->targtype == ACL_TARGET_OBJECT)
		foreach(cell, statement->objects)
			(void) note_name(lfirst_node(RangeVar, cell));
	else if (statement->objtype == OBJECT_TABLE || statement->objtype == OBJECT_SCHEMA)
		note_all();
	else if (statement->objtype == OBJECT_DATABASE)
		krl_note_mark(KRL_CLUSTER_MARK);
}

/* A column that is renamed is so in all tables that inherit from its own. */
static void
refuse_if_key_is_renamed(const RenameStmt *statement)
{
	Oid			table = RangeVarGetRelid(statement->relation, NoLock, true);
	ListCell   *cell;

	if (OidIsValid(table))
		foreach(cell, find_all_inheritors(table, NoLock, NULL))
			refuse_if_key(lfirst_oid(cell), statement->subname);
}

/* The name of a role may be that of another one after this. */
static void
note_renamed(const RenameStmt *statement)
{
	if (statement->renameType == OBJECT_ROLE)
		krl_note_mark(KRL_CLUSTER_MARK);
	else
		(void) note_name(statement->relation);
	if (statement->renameType == OBJECT_COLUMN)
		refuse_if_key_is_renamed(statement);
}

/* From PostgreSQL 16 on, GRANT .. WITH INHERIT FALSE revokes too. */
static bool
revokes_role(const GrantRoleStmt *statement)
{
#if PG_VERSION_NUM >= 160000
	return !statement->is_grant || statement->opt != NIL;
#else
	return !statement->is_grant;
#endif
}

/* Whether the option takes from the role what it has, or may do so. */
static bool
is_taken(DefElem *option, Form_pg_authid role)
{
	if (strcmp(option->defname, "superuser") == 0)
		return role->rolsuper && !defGetBoolean(option);
	if (strcmp(option->defname, "inherit") == 0)
		return role->rolinherit && !defGetBoolean(option);
	if (strcmp(option->defname, "canlogin") == 0)
		return role->rolcanlogin && !defGetBoolean(option);
	return strcmp(option->defname, "validUntil") == 0 ||
		strcmp(option->defname, "connectionlimit") == 0;
}

/* Whether a statement takes rights from a role, or roles from a group. */
static bool
restricts_role(const AlterRoleStmt *statement)
{
	Oid			oid = get_rolespec_oid(statement->role, true);
	HeapTuple	role = SearchSysCache1(AUTHOID, ObjectIdGetDatum(oid));
	bool		result = statement->action < 0;
	ListCell   *cell;

	if (!HeapTupleIsValid(role))
		return false;
	foreach(cell, statement->options)
		result |= is_taken(lfirst_node(DefElem, cell), (Form_pg_authid) GETSTRUCT(role));
	ReleaseSysCache(role);
	return result;
}

/* If a statement changes the definition of a cached table, or who may read it, its rows are taken back. */
static void
note_statement(Node *statement)
{
	switch (nodeTag(statement))
	{
		case T_AlterTableStmt:
			if (note_name(((AlterTableStmt *) statement)->relation))
				refuse_concurrent_detach((AlterTableStmt *) statement);
			break;
		case T_RenameStmt:
			note_renamed((RenameStmt *) statement);
			break;
		case T_AlterObjectSchemaStmt:
			(void) note_name(((AlterObjectSchemaStmt *) statement)->relation);
			break;
		case T_RuleStmt:
			(void) note_name(((RuleStmt *) statement)->relation);
			break;
		case T_CreatePolicyStmt:
			(void) note_name(((CreatePolicyStmt *) statement)->table);
			break;
		case T_AlterPolicyStmt:
			(void) note_name(((AlterPolicyStmt *) statement)->table);
			break;
		case T_CreateTrigStmt:
			(void) note_name(((CreateTrigStmt *) statement)->relation);
			break;
		case T_GrantStmt:
			note_revoked((GrantStmt *) statement);
			break;
		case T_DropOwnedStmt:
			note_all();
			break;
		case T_AlterEnumStmt:
			if (((AlterEnumStmt *) statement)->oldVal)
				note_all();
			break;
			/* Roles are those of all databases. */
		case T_GrantRoleStmt:
			if (revokes_role((GrantRoleStmt *) statement))
				krl_note_mark(KRL_CLUSTER_MARK);
			break;
		case T_AlterRoleStmt:
			if (restricts_role((AlterRoleStmt *) statement))
				krl_note_mark(KRL_CLUSTER_MARK);
			break;
		case T_DropRoleStmt:
			krl_note_mark(KRL_CLUSTER_MARK);
			break;
		default:
			break;
	}
}

static void
process_utility(PlannedStmt *planned, const char *query, bool read_only_tree,
				ProcessUtilityContext context, ParamListInfo params, QueryEnvironment *environment,
				DestReceiver *destination, QueryCompletion *completion)
{
	if (krl_shared && IsTransactionState())
		note_statement(planned->utilityStmt);
	if (next_process_utility)
		next_process_utility(planned, query, read_only_tree, context, params, environment,
							 destination, completion);
	else
		standard_ProcessUtility(planned, query, read_only_tree, context, params, environment,
								destination, completion);
}

void
krl_definitions_init(void)
{
	next_object_access = object_access_hook;
	object_access_hook = on_object_access;
	next_process_utility = ProcessUtility_hook;
	ProcessUtility_hook = process_utility;
}
