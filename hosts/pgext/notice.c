/*-------------------------------------------------------------------------
 *
 * notice.c
 *	  Notices of changes: locks of PostgreSQL's own lock manager.
 *
 * A lock of a transaction ends after its commit is visible, or after it is
 * rolled back, and PREPARE TRANSACTION and recovery keep it: so a notice needs
 * nothing else for any of these.
 *
 *-------------------------------------------------------------------------
 */
#include "postgres.h"

#include "storage/lmgr.h"
#include "storage/lock.h"

#include "krl_pg.h"

/* Advisory locks of applications have the classes 1 and 2. */
#define NOTICE_CLASS 7
#define OPERATOR_CLASS 8

/* Stripes belong to all databases of the cluster, as keys of krl do. */
static LOCKTAG
tag_of(uint64 key)
{
	LOCKTAG		tag;

	SET_LOCKTAG_ADVISORY(tag, InvalidOid, (uint32) (key >> 32), (uint32) key, NOTICE_CLASS);
	return tag;
}

/*
 * Gives notice of a change of this key, until the transaction ends.  Those who
 * give notice of one key do not wait for each other.
 */
void
krl_give_notice(uint64 key)
{
	LOCKTAG		tag = tag_of(key);

	(void) LockAcquire(&tag, RowExclusiveLock, false, false);
}

/* Whether somebody has given notice of this key and has not ended. */
bool
krl_has_notice(uint64 key)
{
	LOCKTAG		tag = tag_of(key);

	if (LockAcquire(&tag, ShareLock, false, true) == LOCKACQUIRE_NOT_AVAIL)
		return true;
	LockRelease(&tag, ShareLock, false);
	return false;
}

/* Of those who suspend and resume, one continues at a time, until its transaction ends. */
void
krl_lock_operators(void)
{
	LOCKTAG		tag;

	SET_LOCKTAG_ADVISORY(tag, InvalidOid, 0, 0, OPERATOR_CLASS);
	(void) LockAcquire(&tag, ExclusiveLock, false, false);
}
