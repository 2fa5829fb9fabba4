/*-------------------------------------------------------------------------
 *
 * ask.c
 *	  Requests of backends to the workers.
 *
 *-------------------------------------------------------------------------
 */
#include "postgres.h"

#include "miscadmin.h"
#include "pgstat.h"
#include "storage/latch.h"
#include "storage/proc.h"
#include "utils/timestamp.h"

#include "krl_pg.h"

#define POLL_MS 10

/* How long a session that has rows made waits until it looks, and reports, how many there are. */
#define REPORT_MS 3000

/* Waits until the latch of this process is set, and for so long at most.  It may be canceled. */
void
krl_wait(long milliseconds)
{
	(void) WaitLatch(MyLatch, WL_LATCH_SET | WL_TIMEOUT | WL_EXIT_ON_PM_DEATH, milliseconds,
					 PG_WAIT_EXTENSION);
	ResetLatch(MyLatch);
	CHECK_FOR_INTERRUPTS();
}

/* How long this session waits for workers: krl.timeout from the last row on that they have made. */
typedef struct Patience
{
	uint64		made;
	TimestampTz end;
	TimestampTz report;
} Patience;

static Patience
begin_patience(void)
{
	TimestampTz now = GetCurrentTimestamp();

	return (Patience) {0, TimestampTzPlusMilliseconds(now, krl_timeout),
		TimestampTzPlusMilliseconds(now, REPORT_MS)};
}

/* Waits for a while.  Returns whether to look again. */
static bool
wait_on(Patience *patience, uint64 made, uint64 wanted, long most)
{
	TimestampTz now = GetCurrentTimestamp();

	if (made > patience->made)
	{
		patience->made = made;
		patience->end = TimestampTzPlusMilliseconds(now, krl_timeout);
	}
	if (made < wanted && now >= patience->report)
	{
		ereport(NOTICE,
				(errmsg("krl has " UINT64_FORMAT " of " UINT64_FORMAT " rows", made, wanted)));
		patience->report = TimestampTzPlusMilliseconds(now, REPORT_MS);
	}
	if (now >= patience->end)
		return false;
	krl_wait(Min(most, TimestampDifferenceMilliseconds(now, patience->end)));
	return true;
}

static void
refuse_recall(const char *fault)
{
	ereport(ERROR,
			(errcode(ERRCODE_CONNECTION_FAILURE),
			 errmsg("could not take the changed rows back from the caches: %s", fault),
			 errhint("Check that krl's server runs at \"%s\". To commit without it, "
					 "stop it for good and call krl.suspend(true).", krl_server_address())));
}

/* How many rows the request is for. */
static uint64
rows_wanted(KrlRequest *request)
{
	return request->kind == KRL_MAKE_ROWS ? request->spans[0].hi - request->spans[0].lo : 0;
}

static void
refuse(KrlRequest *request, const char *fault)
{
	if (request->kind == KRL_RECALL)
		refuse_recall(fault);
	ereport(ERROR,
			(errcode(ERRCODE_CONNECTION_FAILURE),
			 errmsg("could not make the stripes of the table: %s", fault),
			 errdetail("krl has %u of " UINT64_FORMAT " rows. Its server at \"%s\" syncs its store for each.",
					   KRL_MADE(pg_atomic_read_u64(&request->made)), rows_wanted(request),
					   krl_server_address()),
			 errhint("Call krl.cache again, which makes the others. If the store is slow, set "
					 "krl.timeout to more.")));
}

/* Reads why no worker has answered. */
static void
read_delay(char *fault)
{
	krl_read_text(&krl_shared->workers[0], krl_shared->workers[0].fault, fault);
	for (int worker = 0; worker < krl_workers; worker++)
		if (krl_is_ready(&krl_shared->workers[worker]))
			strlcpy(fault, "no answer came within krl.timeout", KRL_FAULT_LENGTH);
}

/* Begins a request of this backend.  No worker answers an earlier one from now on. */
static KrlRequest *
begin_request(KrlRequestKind kind)
{
	KrlRequest *request = krl_request_of(krl_my_procno());
	uint32		number = KRL_NUMBER(pg_atomic_read_u64(&request->state)) + 1;

	pg_atomic_write_u64(&request->state, krl_state(number, 0, KRL_FREE));
	pg_memory_barrier();
	pg_atomic_write_u64(&request->made, (uint64) number << 32);
	request->kind = kind;
	request->begun = GetCurrentTimestamp();
	request->end = TimestampTzPlusMilliseconds(request->begun, krl_timeout);
	request->nspans = 0;
	return request;
}

/* Adds keys that are above those of the request.  Returns false if it has no room for them. */
static bool
add_span(KrlRequest *request, uint64 lo, uint64 hi)
{
	KrlSpan    *last = request->nspans > 0 ? &request->spans[request->nspans - 1] : NULL;

	if (last && last->hi == lo)
		last->hi = hi;
	else if (request->nspans < KRL_MAX_SPANS)
		request->spans[request->nspans++] = (KrlSpan) {lo, hi};
	else
		return false;
	return true;
}

/* Waits until workers have done all spans of the request, in their order. */
static void
await_request(KrlRequest *request)
{
	Patience	patience = begin_patience();
	char		fault[KRL_FAULT_LENGTH];
	uint64		state;
	uint32		made;

	do
	{
		state = pg_atomic_read_u64(&request->state);
		made = KRL_MADE(pg_atomic_read_u64(&request->made));
		if (KRL_PHASE(state) == KRL_DONE)
			return;
		if (KRL_PHASE(state) == KRL_FAILED)
		{
			KrlWorker  *worker = &krl_shared->workers[KRL_PLACE(state)];

			krl_read_text(worker, worker->failure, fault);
			refuse(request, fault);
		}
	} while (wait_on(&patience, made, rows_wanted(request), REPORT_MS));
	read_delay(fault);
	refuse(request, fault);
}

static void
ask(KrlRequest *request)
{
	uint32		number = KRL_NUMBER(pg_atomic_read_u64(&request->state));

	pg_write_barrier();
	pg_atomic_write_u64(&request->state, krl_state(number, 0, KRL_WAITS));
	/* A worker that goes to sleep looks for requests after it has noted that it sleeps. */
	pg_memory_barrier();
	krl_wake_workers(1);
	await_request(request);
	pg_atomic_write_u64(&request->state, krl_state(number, 0, KRL_FREE));
}

/* Waits until the first worker has joined krl's server, and uses its store. */
void
krl_await_first_worker(void)
{
	Patience	patience = begin_patience();
	char		fault[KRL_FAULT_LENGTH];
	uint64		made;

	do
	{
		if (krl_is_ready(&krl_shared->workers[0]))
			return;
		made = pg_atomic_read_u64(&krl_shared->rows_made);
	} while (wait_on(&patience, made, pg_atomic_read_u64(&krl_shared->rows_wanted), POLL_MS));
	read_delay(fault);
	refuse_recall(fault);
}

/* The request of a transaction that was rolled back, if there is one, needs no answer. */
void
krl_drop_request(void)
{
	KrlRequest *request;
	uint64		state;

	if (!krl_shared || !MyProc)
		return;
	request = krl_request_of(krl_my_procno());
	state = pg_atomic_read_u64(&request->state);
	if (KRL_PHASE(state) != KRL_FREE)
		pg_atomic_write_u64(&request->state, krl_state(KRL_NUMBER(state) + 1, 0, KRL_FREE));
}

/* Has these keys, which ascend, taken back from all caches; each at one moment of the call. */
void
krl_recall(const uint64 *keys, int nkeys)
{
	for (int done = 0; done < nkeys;)
	{
		KrlRequest *request = begin_request(KRL_RECALL);

		while (done < nkeys && add_span(request, keys[done], keys[done] + 1))
			done++;
		ask(request);
	}
}

/* Has krl make a row for each of these keys that has none. */
void
krl_make_rows(uint64 first, uint64 nrows)
{
	KrlRequest *request = begin_request(KRL_MAKE_ROWS);

	(void) add_span(request, first, first + nrows);
	ask(request);
}
