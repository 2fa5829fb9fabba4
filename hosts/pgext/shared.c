/*-------------------------------------------------------------------------
 *
 * shared.c
 *	  The shared memory of the extension.
 *
 *-------------------------------------------------------------------------
 */
#include "postgres.h"

#include "miscadmin.h"
#include "postmaster/autovacuum.h"
#include "replication/walsender.h"
#include "storage/ipc.h"
#include "storage/latch.h"
#include "storage/lwlock.h"
#include "storage/proc.h"
#include "storage/shmem.h"

#include "krl_pg.h"

KrlShared  *krl_shared = NULL;

#if PG_VERSION_NUM >= 150000
static shmem_request_hook_type next_shmem_request = NULL;
#endif
static shmem_startup_hook_type next_shmem_startup = NULL;

/* As MaxBackends, which PostgreSQL 14 does not know before it has loaded the libraries. */
static int
max_backends(void)
{
#if PG_VERSION_NUM >= 150000
	return MaxBackends;
#else
	return MaxConnections + autovacuum_max_workers + 1 + max_worker_processes + max_wal_senders;
#endif
}

static Size
requests_offset(void)
{
	return MAXALIGN(add_size(offsetof(KrlShared, kept),
							 mul_size(sizeof(pg_atomic_uint32), krl_stripes + 1)));
}

static Size
shared_size(void)
{
	return add_size(requests_offset(), mul_size(sizeof(KrlRequest), max_backends()));
}

static void
request_shared(void)
{
#if PG_VERSION_NUM >= 150000
	if (next_shmem_request)
		next_shmem_request();
#endif
	RequestAddinShmemSpace(shared_size());
}

static void
init_worker(KrlWorker *worker)
{
	pg_atomic_init_u32(&worker->procno, KRL_NO_PROCESS);
	pg_atomic_init_u32(&worker->ready_in, KRL_NOT_READY);
	pg_atomic_init_u32(&worker->sleeps, false);
	SpinLockInit(&worker->mutex);
	strlcpy(worker->fault, "it has not started", sizeof(worker->fault));
	pg_atomic_init_u64(&worker->spans, 0);
	pg_atomic_init_u64(&worker->failures, 0);
	pg_atomic_init_u64(&worker->microseconds, 0);
}

static void
init_shared(void)
{
	bool		is_suspended = krl_store_is_suspended();

	memset(krl_shared, 0, shared_size());
	SpinLockInit(&krl_shared->mutex);
	krl_shared->nbackends = max_backends();
	pg_atomic_init_u64(&krl_shared->nonce, 0);
	pg_atomic_init_u32(&krl_shared->marked_in, KRL_NOT_READY);
	pg_atomic_init_u32(&krl_shared->joining, 0);
	pg_atomic_init_u32(&krl_shared->server_procno, KRL_NO_PROCESS);
	pg_atomic_init_u32(&krl_shared->server_runs, false);
	pg_atomic_init_u32(&krl_shared->server_is_stopped, false);
	pg_atomic_init_u64(&krl_shared->skipped, 0);
	pg_atomic_init_u64(&krl_shared->rows_made, 0);
	pg_atomic_init_u64(&krl_shared->rows_wanted, 0);
	pg_atomic_init_u32(&krl_shared->is_closed, is_suspended);
	pg_atomic_init_u32(&krl_shared->is_suspended, is_suspended);
	for (int worker = 0; worker < KRL_MAX_WORKERS; worker++)
		init_worker(&krl_shared->workers[worker]);
	for (int key = 0; key <= krl_stripes; key++)
		pg_atomic_init_u32(&krl_shared->kept[key], 0);
	for (int procno = 0; procno < krl_shared->nbackends; procno++)
	{
		pg_atomic_init_u64(&krl_request_of(procno)->state, krl_state(0, 0, KRL_FREE));
		pg_atomic_init_u64(&krl_request_of(procno)->made, 0);
	}
}

static void
start_shared(void)
{
	bool		found;

	if (next_shmem_startup)
		next_shmem_startup();
	LWLockAcquire(AddinShmemInitLock, LW_EXCLUSIVE);
	krl_shared = ShmemInitStruct("krl", shared_size(), &found);
	if (!found)
		init_shared();
	LWLockRelease(AddinShmemInitLock);
}

void
krl_shared_init(void)
{
#if PG_VERSION_NUM >= 150000
	next_shmem_request = shmem_request_hook;
	shmem_request_hook = request_shared;
#else
	request_shared();
#endif
	next_shmem_startup = shmem_startup_hook;
	shmem_startup_hook = start_shared;
}

/* Reports an error unless the library was loaded as the server started. */
void
krl_require_shared(void)
{
	if (!krl_shared)
		ereport(ERROR,
				(errcode(ERRCODE_OBJECT_NOT_IN_PREREQUISITE_STATE),
				 errmsg("krl must be loaded via shared_preload_libraries")));
}

KrlRequest *
krl_request_of(uint32 procno)
{
	Assert(procno < (uint32) krl_shared->nbackends);
	return (KrlRequest *) ((char *) krl_shared + requests_offset()) + procno;
}

uint64
krl_state(uint32 number, uint32 place, KrlPhase phase)
{
	return (uint64) number << 32 | place << 8 | phase;
}

uint32
krl_my_procno(void)
{
#if PG_VERSION_NUM >= 170000
	return MyProcNumber;
#else
	return MyProc->pgprocno;
#endif
}

/* Wakes a process, if there is one. */
void
krl_set_latch(uint32 procno)
{
	if (procno != KRL_NO_PROCESS)
		SetLatch(&ProcGlobal->allProcs[procno].procLatch);
}

/*
 * Wakes so many of the workers that sleep.  The others look for requests when
 * they have done what they do.
 */
void
krl_wake_workers(int most)
{
	for (int number = 0; number < krl_workers && most > 0; number++)
	{
		KrlWorker  *worker = &krl_shared->workers[number];

		if (!pg_atomic_read_u32(&worker->sleeps) || !pg_atomic_exchange_u32(&worker->sleeps, false))
			continue;
		krl_set_latch(pg_atomic_read_u32(&worker->procno));
		most--;
	}
}

/* Has each worker look again what it should do. */
void
krl_set_latches(void)
{
	for (int number = 0; number < krl_workers; number++)
		krl_set_latch(pg_atomic_read_u32(&krl_shared->workers[number].procno));
}

/* Copies the fault of a worker, or its failure. */
void
krl_read_text(KrlWorker *worker, const char *text, char *copy)
{
	SpinLockAcquire(&worker->mutex);
	strlcpy(copy, text, KRL_FAULT_LENGTH);
	SpinLockRelease(&worker->mutex);
}

/* Whether the worker has joined krl's server, and takes keys back. */
bool
krl_is_ready(KrlWorker *worker)
{
	return pg_atomic_read_u32(&worker->ready_in) == pg_atomic_read_u32(&krl_shared->joining);
}

/* Has each worker leave krl's server and join the one that it finds then. */
void
krl_join_again(void)
{
	pg_atomic_write_u64(&krl_shared->nonce, 0);
	pg_atomic_fetch_add_u32(&krl_shared->joining, 1);
	krl_set_latches();
}

/* The count of a key: that of the cluster's mark is the last one. */
static pg_atomic_uint32 *
count_of(uint64 key)
{
	return &krl_shared->kept[Min(key, (uint64) krl_stripes)];
}

/* Whether a reader may have kept a row by the key since it was taken back last. */
bool
krl_is_kept(uint64 key)
{
	return pg_atomic_read_u32(count_of(key)) & 1;
}

/* A reader is about to keep a row by the key.  Returns the count from then on. */
uint32
krl_note_kept(uint64 key)
{
	return pg_atomic_fetch_or_u32(count_of(key), 1) | 1;
}

uint32
krl_kept_count(uint64 key)
{
	return pg_atomic_read_u32(count_of(key));
}

/* The key was taken back from all caches. */
void
krl_note_recalled(uint64 key)
{
	pg_atomic_uint32 *count = count_of(key);
	uint32		old = pg_atomic_read_u32(count);

	while (!pg_atomic_compare_exchange_u32(count, &old, (old | 1) + 1))
		;
}
