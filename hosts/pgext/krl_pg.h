/*-------------------------------------------------------------------------
 *
 * krl_pg.h
 *	  What the files of the extension share.
 *
 * A transaction notes which rows of cached tables it changes (changes.c).
 * Before it commits it gives notice of them (notice.c) and has them taken
 * back from all caches (ask.c, answer.c) by background workers, which are
 * clients of krl (worker.c).  A reader that holds rows in krl asks whether somebody has
 * given notice of them (sql.c), and keeps what it selects after that only if
 * nobody has.  PROTOCOL.md has the argument that no cache is stale.
 *
 *-------------------------------------------------------------------------
 */
#ifndef KRL_PG_H
#define KRL_PG_H

#include "datatype/timestamp.h"
#include "port/atomics.h"
#include "storage/spin.h"

#include "krl_client.h"

#define KRL_MAX_WORKERS 8

/* One request has so many spans at most: their places have eight bits. */
#define KRL_MAX_SPANS 64

#define KRL_FAULT_LENGTH 256

/*
 * Keys of krl.  Those of a table are its mark and, after it, its stripes; the
 * keys of all tables lie below krl_stripes.  A reader holds the mark of the
 * table with each stripe, and the mark of the cluster: whoever takes a mark
 * takes all rows of the table, or of all tables.  The row before the mark of
 * the cluster names the store.
 */
#define KRL_CLUSTER_MARK (UINT64CONST(1) << 40)
#define KRL_STORE_KEY (KRL_CLUSTER_MARK - 1)

/* The most keys of all tables together: with two rows more they are the most rows of krl. */
#define KRL_MAX_STRIPES ((1 << 20) - 2)

/* The keys from lo on below hi. */
typedef struct KrlSpan
{
	uint64		lo;
	uint64		hi;
} KrlSpan;

typedef enum KrlRequestKind
{
	KRL_RECALL,					/* take the keys back from all caches */
	KRL_MAKE_ROWS				/* make a row for each key of the only span that has none */
} KrlRequestKind;

/*
 * A backend has one request, of which workers do one span after another.  Its
 * state has three parts: its phase; its place, which is the next span, or the
 * worker that failed; and its number, which grows with each request of the
 * backend.  The backend changes any phase to FREE, and FREE to WAITS.  A worker
 * changes WAITS and SET_ASIDE to RUNS, and that to WAITS for the next span, to
 * SET_ASIDE for the same one, to DONE or to FAILED, if the number is still the
 * same.
 */
typedef enum KrlPhase
{
	KRL_FREE,
	KRL_WAITS,
	KRL_SET_ASIDE,				/* it waits, and the spare worker has tried it */
	KRL_RUNS,
	KRL_DONE,
	KRL_FAILED
} KrlPhase;

#define KRL_PHASE(state) ((KrlPhase) ((state) & 0xff))
#define KRL_PLACE(state) ((uint32) ((state) >> 8) & 0xff)
#define KRL_NUMBER(state) ((uint32) ((state) >> 32))

/* What a worker has done. */
typedef enum KrlAnswer
{
	KRL_ANSWERED,
	KRL_IDLE,					/* nothing waits */
	KRL_STUCK					/* its client waits for a lock, and others need the worker */
} KrlAnswer;

/* How many rows of a request are made, and the number of the request. */
#define KRL_MADE(made) ((uint32) (made))

typedef struct KrlRequest
{
	pg_atomic_uint64 state;
	pg_atomic_uint64 made;
	KrlRequestKind kind;
	TimestampTz begun;
	TimestampTz end;			/* when the backend no longer waits for keys to be taken back */
	int			nspans;
	KrlSpan		spans[KRL_MAX_SPANS];
} KrlRequest;

typedef struct KrlWorker
{
	pg_atomic_uint32 procno;	/* KRL_NO_PROCESS if it does not run */
	pg_atomic_uint32 ready_in;	/* the joining in which it is ready, or KRL_NOT_READY */
	pg_atomic_uint32 sleeps;	/* whether it is to be woken for a request */

	/* The keys that it does, and whether another worker has left them to it: by krl_shared->mutex. */
	KrlSpan		claimed;
	bool		is_awaited;

	slock_t		mutex;			/* protects both texts */
	char		fault[KRL_FAULT_LENGTH];	/* why it is not ready */
	char		failure[KRL_FAULT_LENGTH];	/* why it last failed to do a request */
	pg_atomic_uint64 spans;		/* that it took back */
	pg_atomic_uint64 failures;
	pg_atomic_uint64 microseconds;	/* that this took */
} KrlWorker;

#define KRL_NO_PROCESS PG_UINT32_MAX
#define KRL_NOT_READY PG_UINT32_MAX

typedef struct KrlShared
{
	/* The value of the cluster's mark since this start, or 0 until it has it. */
	pg_atomic_uint64 nonce;

	/* The joining in which the first worker took the cluster's mark, or KRL_NOT_READY. */
	pg_atomic_uint32 marked_in;

	/* Readers keep nothing: krl's server is stopped, or is about to be. */
	pg_atomic_uint32 is_closed;

	/* Transactions commit without krl. */
	pg_atomic_uint32 is_suspended;

	/*
	 * Greater each time that the workers should leave krl's server and join
	 * again.  A worker is ready in the current joining.
	 */
	pg_atomic_uint32 joining;

	/* Of the worker that starts krl's server: whether that may run, and whether it is to be stopped. */
	pg_atomic_uint32 server_procno;
	pg_atomic_uint32 server_runs;
	pg_atomic_uint32 server_is_stopped;

	/* How many keys were changed of which nobody had kept anything. */
	pg_atomic_uint64 skipped;

	/* Of the store that the first worker takes while the cluster is suspended: its rows, and those to be made. */
	pg_atomic_uint64 rows_made;
	pg_atomic_uint64 rows_wanted;

	slock_t		mutex;			/* protects what workers have claimed */
	int			nbackends;
	KrlWorker	workers[KRL_MAX_WORKERS];

	/*
	 * For each key of a table, and for the cluster's mark, twice how often it
	 * was taken back, and one more if a reader may have kept a row by it since
	 * then.  The requests of all backends follow.
	 */
	pg_atomic_uint32 kept[FLEXIBLE_ARRAY_MEMBER];
} KrlShared;

/* krl.c: the settings */
extern char *krl_servers;
extern char *krl_table_name;
extern char *krl_tls_authority;
extern char *krl_tls_certificate;
extern char *krl_tls_key;
extern char *krl_server_program;
extern char *krl_server_users;
extern char *krl_status_address;
extern int	krl_workers;
extern int	krl_first_client;
extern int	krl_stripes;
extern int	krl_timeout;
extern int	krl_lease;
extern int	krl_recall_limit;
extern char *krl_directory_path(void);

/* shared.c */
extern KrlShared *krl_shared;
extern void krl_shared_init(void);
extern void krl_require_shared(void);
extern KrlRequest *krl_request_of(uint32 procno);
extern uint64 krl_state(uint32 number, uint32 place, KrlPhase phase);
extern uint32 krl_my_procno(void);
extern void krl_set_latch(uint32 procno);
extern void krl_wake_workers(int most);
extern void krl_set_latches(void);
extern bool krl_is_ready(KrlWorker *worker);
extern void krl_read_text(KrlWorker *worker, const char *text, char *copy);
extern void krl_join_again(void);
extern bool krl_is_kept(uint64 key);
extern uint32 krl_note_kept(uint64 key);
extern uint32 krl_kept_count(uint64 key);
extern void krl_note_recalled(uint64 key);

/* notice.c */
extern void krl_give_notice(uint64 key);
extern bool krl_has_notice(uint64 key);
extern void krl_lock_operators(void);

/* ask.c */
extern void krl_wait(long milliseconds);
extern void krl_recall(const uint64 *keys, int nkeys);
extern void krl_make_rows(uint64 first, uint64 nrows);
extern void krl_await_first_worker(void);
extern void krl_drop_request(void);

/* answer.c */
extern bool krl_must_end(void);
extern KrlAnswer krl_answer_one(krlc_client *client, int number);
extern void krl_return_request(void);

/* rows.c */
extern uint32 krl_insert_rows(krlc_client *client, KrlSpan *span, krlc_error *error);

/* store.c */
extern bool krl_store_is_own(krlc_client *client, int worker, krlc_error *error);
extern void krl_store_note_rows(uint64 end);
extern bool krl_store_is_suspended(void);
extern void krl_store_suspend(void);
extern void krl_store_resume(void);

/* server.c */
extern const char *krl_server_address(void);
extern void krl_stop_server(void);
extern void krl_let_server_run(void);
PGDLLEXPORT void krl_server_main(Datum number);

/* worker.c */
extern void krl_workers_init(void);
PGDLLEXPORT void krl_worker_main(Datum number);

#endif							/* KRL_PG_H */
