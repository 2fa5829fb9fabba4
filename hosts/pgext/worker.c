/*-------------------------------------------------------------------------
 *
 * worker.c
 *	  The background workers, which are clients of krl.
 *
 *-------------------------------------------------------------------------
 */
#include "postgres.h"

#include <signal.h>

#include "miscadmin.h"
#include "pgstat.h"
#include "postmaster/bgworker.h"
#include "postmaster/interrupt.h"
#include "storage/fd.h"
#include "storage/ipc.h"
#include "storage/latch.h"
#include "utils/guc.h"
#include "utils/memutils.h"
#include "utils/timestamp.h"

#include "krl_pg.h"

/* How long a worker waits for krl's server before it looks again what it should do. */
#define JOIN_MS 5000

#define MARK_MS 5000

#define REJOIN_MS 200
#define IDLE_MS 1000

static int	my_number;
static KrlWorker *my_worker;
static krlc_client *client = NULL;
static uint32 joined_in = 0;	/* the joining that the client made */
static bool was_stuck = false;	/* it left for other requests: that it joins again is not reported */

static void
set_fault(const char *fault)
{
	SpinLockAcquire(&my_worker->mutex);
	strlcpy(my_worker->fault, fault, sizeof(my_worker->fault));
	SpinLockRelease(&my_worker->mutex);
}

/* From now on other workers do what waits; and no transaction knows what readers keep. */
static void
be_unready(const char *fault)
{
	pg_atomic_write_u32(&my_worker->ready_in, KRL_NOT_READY);
	pg_atomic_write_u32(&my_worker->sleeps, false);
	if (my_number == 0)
		pg_atomic_write_u64(&krl_shared->nonce, 0);
	set_fault(fault);
	krl_wake_workers(krl_workers);
}

static void
on_worker_exit(int code, Datum arg)
{
	krl_return_request();
	be_unready("the worker has ended");
	pg_atomic_write_u32(&my_worker->procno, KRL_NO_PROCESS);
}

static const char *
text_or_null(const char *setting)
{
	return setting && setting[0] ? setting : NULL;
}

/*
 * Joins krl's server, unless it has.  The threads of the client take no signals
 * of PostgreSQL.
 */
static bool
join(krlc_error *error)
{
	krlc_options options = {.size = sizeof(options)};
	char	   *lock_file;
	sigset_t	all;
	sigset_t	before;
	uint32		code;

	if (client)
		return true;
	joined_in = pg_atomic_read_u32(&krl_shared->joining);
	lock_file = psprintf("%s/worker-%d.lock", krl_directory_path(), my_number);
	options.servers = krl_server_address();
	options.table = text_or_null(krl_table_name);
	options.tls_authority = text_or_null(krl_tls_authority);
	options.tls_certificate = text_or_null(krl_tls_certificate);
	options.tls_key = text_or_null(krl_tls_key);
	options.lock_file = lock_file;
	options.number = krl_first_client + my_number;
	options.timeout_ms = JOIN_MS;
	sigfillset(&all);
	pthread_sigmask(SIG_SETMASK, &all, &before);
	code = krlc_join(&options, &client, error);
	pthread_sigmask(SIG_SETMASK, &before, NULL);
	pfree(lock_file);
	return code == KRLC_OK;
}

/*
 * Puts a nonce into the cluster's mark, which takes everything back from all
 * caches.  After that an even count means that nobody keeps anything by the
 * key, and the other workers may join.
 */
static bool
take_mark(krlc_error *error)
{
	uint64		nonce;

	if (!pg_strong_random(&nonce, sizeof(nonce)))
		ereport(ERROR,
				(errcode(ERRCODE_INTERNAL_ERROR), errmsg("could not generate random values")));
	nonce |= 1;
	if (krlc_set(client, KRL_CLUSTER_MARK, &nonce, sizeof(nonce), MARK_MS, error) != KRLC_OK)
		return false;
	pg_atomic_write_u64(&krl_shared->nonce, nonce);
	pg_atomic_write_u32(&krl_shared->marked_in, joined_in);
	krl_set_latches();
	return true;
}

/* Whether no reader may answer for longer than krl.suspend waits. */
static bool
is_lease_covered(krlc_error *error)
{
	krlc_status status;

	if (krlc_status_at(client, 0, &status, error) != KRLC_OK)
		return false;
	if (status.lease_left_ms <= (uint64) krl_lease)
		return true;
	strlcpy(error->sentence, status.lease_left_ms == KRLC_FOR_EVER
			? "its leases do not end: start it with --lease"
			: "its leases are longer than krl.lease", sizeof(error->sentence));
	return false;
}

static bool
get_ready(krlc_error *error)
{
	return is_lease_covered(error) &&
		krl_store_is_own(client, my_number, error) &&
		(my_number > 0 || take_mark(error));
}

/* Reports a new fault once. */
static void
report_fault(const char *fault)
{
	if (strcmp(my_worker->fault, fault) != 0)
		ereport(LOG,
				(errmsg("krl: worker %d does not work with krl's server at \"%s\": %s",
						my_number, krl_server_address(), fault)));
	set_fault(fault);
}

static bool
try_to_get_ready(void)
{
	krlc_error	error = {0};

	/* A server of krl that has started again serves nobody until all its clients have joined again. */
	if (!join(&error))
	{
		report_fault(error.sentence);
		return false;
	}
	/* Readers that still ask the old primary may keep rows until this one has the mark. */
	if (my_number > 0 && pg_atomic_read_u32(&krl_shared->marked_in) != joined_in)
	{
		set_fault("the first worker has not taken the mark of the cluster");
		return false;
	}
	if (!get_ready(&error))
	{
		report_fault(error.sentence);
		return false;
	}
	set_fault("");
	pg_atomic_write_u32(&my_worker->ready_in, joined_in);
	ereport(was_stuck ? DEBUG1 : LOG,
			(errmsg("krl: worker %d is client %d of krl's server at \"%s\"",
					my_number, krl_first_client + my_number, krl_server_address())));
	was_stuck = false;
	return true;
}

static void
leave(const char *why)
{
	be_unready(why);
	krlc_free(client);
	client = NULL;
}

/* The cluster was suspended: it may find another store now. */
static void
leave_if_suspended(void)
{
	if (client && joined_in != pg_atomic_read_u32(&krl_shared->joining))
		leave("the cluster was suspended");
}

/* Reads the settings and the files for TLS again. */
static void
reload(void)
{
	krlc_error	error = {0};

	ConfigReloadPending = false;
	ProcessConfigFile(PGC_SIGHUP);
	if (client && text_or_null(krl_tls_authority) && krlc_reload_tls(client, &error) != KRLC_OK)
		ereport(LOG, (errmsg("krl: worker %d keeps its files for TLS: %s",
							 my_number, error.sentence)));
}

/* Returns how long the worker may sleep. */
static long
work(void)
{
	krlc_error	error = {0};
	KrlAnswer	answer;

	CHECK_FOR_INTERRUPTS();
	if (ConfigReloadPending)
		reload();
	leave_if_suspended();
	if (!krl_is_ready(my_worker) && !try_to_get_ready())
		return REJOIN_MS;
	answer = krl_answer_one(client, my_number);
	if (answer == KRL_STUCK)
	{
		was_stuck = true;
		leave("it has left krl's server to take back other rows");
	}
	if (answer != KRL_IDLE)
		return 0;
	if (is_lease_covered(&error))
		return IDLE_MS;
	report_fault(error.sentence);
	be_unready(error.sentence);
	return REJOIN_MS;
}

void
krl_worker_main(Datum number)
{
	MemoryContext of_step = AllocSetContextCreate(TopMemoryContext, "krl: one step of the worker",
												  ALLOCSET_DEFAULT_SIZES);

	my_number = DatumGetInt32(number);
	my_worker = &krl_shared->workers[my_number];
	pqsignal(SIGTERM, SignalHandlerForShutdownRequest);
	pqsignal(SIGHUP, SignalHandlerForConfigReload);
	BackgroundWorkerUnblockSignals();
	before_shmem_exit(on_worker_exit, 0);
	pg_atomic_write_u32(&my_worker->procno, krl_my_procno());
	(void) MakePGDirectory(krl_directory_path());
	while (!ShutdownRequestPending)
	{
		long		sleep;

		MemoryContextSwitchTo(of_step);
		MemoryContextReset(of_step);
		sleep = work();
		if (sleep > 0)
			(void) WaitLatch(MyLatch, WL_LATCH_SET | WL_TIMEOUT | WL_EXIT_ON_PM_DEATH, sleep,
							 PG_WAIT_EXTENSION);
		pg_atomic_write_u32(&my_worker->sleeps, false);
		ResetLatch(MyLatch);
	}
	if (client)
		krlc_free(client);
	proc_exit(1);				/* it is started again, unless the server stops */
}

static void
register_worker(const char *type, const char *function, int number)
{
	BackgroundWorker worker = {0};

	snprintf(worker.bgw_name, BGW_MAXLEN, "%s %d", type, number);
	strlcpy(worker.bgw_type, type, BGW_MAXLEN);
	strlcpy(worker.bgw_library_name, "krl", BGW_MAXLEN);
	strlcpy(worker.bgw_function_name, function, BGW_MAXLEN);
	worker.bgw_flags = BGWORKER_SHMEM_ACCESS;
	worker.bgw_start_time = BgWorkerStart_RecoveryFinished;
	worker.bgw_restart_time = 1;
	worker.bgw_main_arg = Int32GetDatum(number);
	RegisterBackgroundWorker(&worker);
}

/* Has PostgreSQL start the workers, and reports if it will not start all of them. */
void
krl_workers_init(void)
{
	bool		has_server = krl_servers[0] == '\0';

	/* One is that of logical replication. */
	if (krl_workers + has_server >= max_worker_processes)
		ereport(WARNING,
				(errmsg("krl.workers is %d, and max_worker_processes is %d", krl_workers,
						max_worker_processes),
				 errdetail("Some of krl's workers will not start: the others work for them."),
				 errhint("Set max_worker_processes to %d or more.", krl_workers + 8)));
	if (has_server)
		register_worker("krl server", "krl_server_main", 0);
	for (int number = 0; number < krl_workers; number++)
		register_worker("krl worker", "krl_worker_main", number);
}
