/*-------------------------------------------------------------------------
 *
 * answer.c
 *	  The requests of backends, as workers do them.
 *
 * To take keys back from all caches a worker holds them in krl so that nobody
 * else may read them, at one moment after the notice of their change.  Nothing
 * has to hold after that moment: from the notice on nobody begins to keep them.
 *
 * A client of krl waits for one lock at a time, for a lease if a reader that
 * has stopped holds it.  So a worker does one span of one request, and any
 * other worker does the others meanwhile, unless they have keys of this span.
 * The spare worker does not wait while there are requests that nobody has
 * tried: it sets its own aside, and leaves krl and joins again, since a client
 * takes a request for a lock back by leaving only.
 *
 *-------------------------------------------------------------------------
 */
#include "postgres.h"

#include "miscadmin.h"
#include "postmaster/interrupt.h"
#include "storage/pmsignal.h"
#include "utils/timestamp.h"

#include "krl_pg.h"

/* How long one call of krl's client waits before the worker looks again what it should do. */
#define ATTEMPT_MS 100

#define RETRY_MS 10

/* The span of a request that this worker does. */
typedef struct Task
{
	KrlRequest *request;		/* null if it does none */
	uint32		procno;			/* of the backend */
	uint64		state;			/* of the request, which runs */
	KrlRequestKind kind;
	TimestampTz end;
	uint64		made;			/* of the request */
	KrlSpan		span;			/* without the rows that are made */
	bool		is_last;
} Task;

static Task task;
static int	my_number;
static KrlWorker *my_worker;
static bool is_about_to_sleep = false;

/* A server that is gone cannot be started again before its last process has ended. */
bool
krl_must_end(void)
{
	return ShutdownRequestPending || !PostmasterIsAlive();
}

/* Holds the span at one moment of the call so that nobody else may read it. */
static uint32
hold_once(krlc_client *client, KrlSpan span, long milliseconds, krlc_error *error)
{
	krlc_pin   *pin;
	uint32		code = krlc_pin_for_write(client, span.lo, span.hi, NULL, &pin, milliseconds, error);

	if (code != KRLC_OK)
		return code;
	code = krlc_pin_holds(pin);
	krlc_pin_free(pin);
	if (code != KRLC_OK)
		strlcpy(error->sentence, "the lease of the worker ended", sizeof(error->sentence));
	return code;
}

static bool
overlap(const KrlSpan *a, const KrlSpan *b)
{
	return a->lo < b->hi && b->lo < a->hi;
}

/* Whether a worker does some of these keys. */
static bool
is_claimed(KrlSpan span)
{
	bool		found = false;

	SpinLockAcquire(&krl_shared->mutex);
	for (int number = 0; number < krl_workers; number++)
		found |= overlap(&krl_shared->workers[number].claimed, &span);
	SpinLockRelease(&krl_shared->mutex);
	return found;
}

/* The last worker is the spare one.  The first one stays in krl: another cluster could take its number. */
static bool
is_spare(void)
{
	return my_number > 0 && my_number == krl_workers - 1;
}

/*
 * Whether this worker should do another request than the one for whose lock it
 * waits: one that no other worker has begun for so long.
 */
static bool
is_needed(void)
{
	TimestampTz latest = GetCurrentTimestamp() - ATTEMPT_MS * INT64CONST(1000);

	if (!is_spare())
		return false;
	for (int procno = 0; procno < krl_shared->nbackends; procno++)
	{
		KrlRequest *request = krl_request_of(procno);
		uint64		state = pg_atomic_read_u64(&request->state);

		if (KRL_PHASE(state) == KRL_WAITS && request->begun <= latest &&
			!is_claimed(request->spans[KRL_PLACE(state)]))
			return true;
	}
	return false;
}

/* The same, again and again until the end, or until other requests need the worker. */
static uint32
hold(krlc_client *client, KrlSpan span, TimestampTz end, krlc_error *error)
{
	for (;;)
	{
		long		left = TimestampDifferenceMilliseconds(GetCurrentTimestamp(), end);
		long		waits = Max(Min(left, ATTEMPT_MS), 1);
		uint32		code = hold_once(client, span, waits, error);

		if (code == KRLC_OK || left <= 0 || krl_must_end())
			return code;
		if (code == KRLC_TIMED_OUT && is_needed())
			return code;
		if (code != KRLC_TIMED_OUT && code != KRLC_UNSERVED && code != KRLC_PIN_IS_VOID)
			pg_usleep(RETRY_MS * 1000L);
	}
}

/*
 * The client still waits for a lock, and cannot ask for another one before it
 * has this one.  Meanwhile other workers do what waits.  Returns whether they
 * need this one before that.
 */
static bool
await_lock(krlc_client *client, KrlSpan span)
{
	krlc_error	error;

	while (!krl_must_end() && krl_is_ready(my_worker))
	{
		if (is_needed())
			return true;
		if (hold_once(client, span, ATTEMPT_MS, &error) != KRLC_TIMED_OUT)
			return false;
	}
	return false;
}

/* Notes that this worker does these keys, unless another one does some of them. */
static bool
claim(KrlSpan span)
{
	bool		is_free = true;

	SpinLockAcquire(&krl_shared->mutex);
	for (int number = 0; number < krl_workers; number++)
	{
		KrlWorker  *other = &krl_shared->workers[number];

		if (other == my_worker || !overlap(&other->claimed, &span))
			continue;
		other->is_awaited = true;
		is_free = false;
	}
	if (is_free)
		my_worker->claimed = span;
	SpinLockRelease(&krl_shared->mutex);
	return is_free;
}

/* What other workers have left to this one may be done by any of them from now on. */
static void
end_claim(void)
{
	bool		is_awaited;

	SpinLockAcquire(&krl_shared->mutex);
	my_worker->claimed = (KrlSpan) {0, 0};
	is_awaited = my_worker->is_awaited;
	my_worker->is_awaited = false;
	SpinLockRelease(&krl_shared->mutex);
	if (is_awaited)
		krl_wake_workers(krl_workers);
}

/*
 * The worker does not sleep after all.  If it was woken for another request
 * than the one that it has begun, another worker is woken for that.
 */
static void
stay_awake(void)
{
	if (is_about_to_sleep && !pg_atomic_exchange_u32(&my_worker->sleeps, false))
		krl_wake_workers(1);
	is_about_to_sleep = false;
}

/* Begins the next span of a backend's request, if that waits and no other worker does keys of the span. */
static bool
begin_task(uint32 procno, bool takes_set_aside)
{
	KrlRequest *request = krl_request_of(procno);
	uint64		state = pg_atomic_read_u64(&request->state);
	uint32		place = KRL_PLACE(state);

	if (KRL_PHASE(state) != KRL_WAITS && !(takes_set_aside && KRL_PHASE(state) == KRL_SET_ASIDE))
		return false;
	pg_read_barrier();
	task.procno = procno;
	task.kind = request->kind;
	task.end = request->end;
	task.span = request->spans[place];
	task.made = pg_atomic_read_u64(&request->made);
	task.span.lo += KRL_MADE(task.made);
	task.is_last = (int) place + 1 >= request->nspans;
	if (!claim(task.span))
		return false;
	/* If the backend has begun another request meanwhile, its number differs. */
	task.state = krl_state(KRL_NUMBER(state), place, KRL_RUNS);
	if (!pg_atomic_compare_exchange_u64(&request->state, &state, task.state))
	{
		end_claim();
		return false;
	}
	task.request = request;
	stay_awake();
	return true;
}

/* Gives the request its next state, if the backend still waits for it. */
static void
settle(uint32 place, KrlPhase phase)
{
	uint64		running = task.state;
	uint64		next = krl_state(KRL_NUMBER(running), place, phase);

	if (pg_atomic_compare_exchange_u64(&task.request->state, &running, next) &&
		(phase == KRL_DONE || phase == KRL_FAILED))
		krl_set_latch(task.procno);
	task.request = NULL;
}

static void
fail(uint32 code, const krlc_error *error)
{
	pg_atomic_fetch_add_u64(&my_worker->failures, 1);
	SpinLockAcquire(&my_worker->mutex);
	strlcpy(my_worker->failure, error->sentence[0] ? error->sentence : krlc_code_name(code),
			sizeof(my_worker->failure));
	SpinLockRelease(&my_worker->mutex);
	settle(my_number, KRL_FAILED);
}

static uint32
recall_task(krlc_client *client, krlc_error *error)
{
	TimestampTz begun = GetCurrentTimestamp();
	uint32		code;

	code = hold(client, task.span, task.end, error);
	pg_atomic_fetch_add_u64(&my_worker->spans, code == KRLC_OK);
	pg_atomic_fetch_add_u64(&my_worker->microseconds, GetCurrentTimestamp() - begun);
	return code;
}

/*
 * Makes the next rows of a request.  What fails is tried again, by any worker,
 * as long as the backend waits.
 */
static KrlAnswer
make_rows(krlc_client *client)
{
	krlc_error	error = {0};
	KrlSpan		left = task.span;
	uint32		code = krl_insert_rows(client, &left, &error);

	(void) pg_atomic_compare_exchange_u64(&task.request->made, &task.made,
										  task.made + left.lo - task.span.lo);
	if (code == KRLC_FULL)
		fail(code, &error);
	else
		settle(KRL_PLACE(task.state), left.lo < left.hi ? KRL_WAITS : KRL_DONE);
	end_claim();
	if (code != KRLC_OK)
		pg_usleep(RETRY_MS * 1000L);
	return KRL_ANSWERED;
}

static KrlAnswer
take_back(krlc_client *client)
{
	krlc_error	error = {0};
	uint32		code = recall_task(client, &error);
	bool		is_set_aside = code == KRLC_TIMED_OUT && GetCurrentTimestamp() < task.end;
	bool		is_stuck = false;

	if (is_set_aside)
		settle(KRL_PLACE(task.state), KRL_SET_ASIDE);
	else if (code != KRLC_OK)
		fail(code, &error);
	else if (task.is_last)
		settle(KRL_PLACE(task.state), KRL_DONE);
	else
		settle(KRL_PLACE(task.state) + 1, KRL_WAITS);
	/* The backend does not wait for this.  If it fails, the next reader calls the keys back. */
	if (code == KRLC_OK)
		(void) !krlc_forget(client, task.span.lo, task.span.hi, ATTEMPT_MS, NULL);
	if (code == KRLC_TIMED_OUT)
		is_stuck = await_lock(client, task.span);
	end_claim();
	if (is_set_aside)
		krl_wake_workers(1);
	return is_stuck ? KRL_STUCK : KRL_ANSWERED;
}

static KrlAnswer
do_one_task(krlc_client *client, bool takes_set_aside)
{
	static uint32 first = 0;	/* the backends take turns */

	for (int i = 0; i < krl_shared->nbackends && !krl_must_end(); i++)
	{
		uint32		procno = (first + i) % krl_shared->nbackends;

		if (!begin_task(procno, takes_set_aside))
			continue;
		first = task.is_last ? procno + 1 : procno;
		return task.kind == KRL_MAKE_ROWS ? make_rows(client) : take_back(client);
	}
	return KRL_IDLE;
}

/* The spare worker does first what nobody has tried. */
static KrlAnswer
do_next_task(krlc_client *client)
{
	KrlAnswer	answer = is_spare() ? do_one_task(client, false) : KRL_IDLE;

	return answer == KRL_IDLE ? do_one_task(client, true) : answer;
}

/* Does one span of a request that waits.  If there is none, the worker is woken for the next one. */
KrlAnswer
krl_answer_one(krlc_client *client, int number)
{
	KrlAnswer	answer;

	my_number = number;
	my_worker = &krl_shared->workers[number];
	answer = do_next_task(client);
	if (answer != KRL_IDLE)
		return answer;
	is_about_to_sleep = true;
	pg_atomic_write_u32(&my_worker->sleeps, true);
	pg_memory_barrier();
	answer = do_next_task(client);
	is_about_to_sleep = false;
	return answer;
}

/* This worker ends: another one does what it was about to do. */
void
krl_return_request(void)
{
	if (task.request)
		settle(KRL_PLACE(task.state), KRL_WAITS);
	if (my_worker)
		end_claim();
}
