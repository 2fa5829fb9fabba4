/*-------------------------------------------------------------------------
 *
 * status.c
 *	  What workers do, who waits for them, and who the clients of krl are.
 *
 *-------------------------------------------------------------------------
 */
#include "postgres.h"

#include "access/htup_details.h"
#include "fmgr.h"
#include "funcapi.h"
#include "lib/stringinfo.h"
#include "storage/fd.h"
#include "storage/proc.h"
#include "utils/builtins.h"

#include "krl_pg.h"

PG_FUNCTION_INFO_V1(krl_worker);

/* krl.worker(number integer, ..) */
Datum
krl_worker(PG_FUNCTION_ARGS)
{
	int32		number = PG_GETARG_INT32(0);
	KrlWorker  *worker;
	TupleDesc	desc;
	char		fault[KRL_FAULT_LENGTH];
	uint32		procno;
	Datum		values[6];
	bool		nulls[6] = {false};

	krl_require_shared();
	if (number < 0 || number >= krl_workers)
		PG_RETURN_NULL();
	if (get_call_result_type(fcinfo, NULL, &desc) != TYPEFUNC_COMPOSITE)
		elog(ERROR, "return type must be a row type");
	worker = &krl_shared->workers[number];
	krl_read_text(worker, worker->fault, fault);
	values[0] = BoolGetDatum(krl_is_ready(worker));
	values[1] = CStringGetTextDatum(fault);
	nulls[1] = fault[0] == '\0';
	procno = pg_atomic_read_u32(&worker->procno);
	nulls[2] = procno == KRL_NO_PROCESS;
	values[2] = Int32GetDatum(nulls[2] ? 0 : ProcGlobal->allProcs[procno].pid);
	values[3] = Int64GetDatum((int64) pg_atomic_read_u64(&worker->spans));
	values[4] = Int64GetDatum((int64) pg_atomic_read_u64(&worker->failures));
	values[5] = Float8GetDatum(pg_atomic_read_u64(&worker->microseconds) / 1000.0);
	PG_RETURN_DATUM(HeapTupleGetDatum(heap_form_tuple(BlessTupleDesc(desc), values, nulls)));
}

PG_FUNCTION_INFO_V1(krl_skipped);

/* krl.skipped() */
Datum
krl_skipped(PG_FUNCTION_ARGS)
{
	krl_require_shared();
	PG_RETURN_INT64((int64) pg_atomic_read_u64(&krl_shared->skipped));
}

/* The next backend from this one on that waits for workers, or -1.  Reads the state of its request. */
static int
next_waiting(int procno, uint64 *state)
{
	for (; procno < krl_shared->nbackends; procno++)
	{
		*state = pg_atomic_read_u64(&krl_request_of(procno)->state);
		if (KRL_PHASE(*state) == KRL_WAITS || KRL_PHASE(*state) == KRL_SET_ASIDE ||
			KRL_PHASE(*state) == KRL_RUNS)
			return procno;
	}
	return -1;
}

static void
begin_requests(FunctionCallInfo fcinfo)
{
	FuncCallContext *calls = SRF_FIRSTCALL_INIT();
	MemoryContext before = MemoryContextSwitchTo(calls->multi_call_memory_ctx);
	TupleDesc	desc;

	if (get_call_result_type(fcinfo, NULL, &desc) != TYPEFUNC_COMPOSITE)
		elog(ERROR, "return type must be a row type");
	calls->tuple_desc = BlessTupleDesc(desc);
	calls->user_fctx = palloc0(sizeof(int));
	MemoryContextSwitchTo(before);
}

PG_FUNCTION_INFO_V1(krl_requests);

/* krl.requests(OUT pid integer, OUT key bigint, OUT end_key bigint, OUT is_in_work boolean) */
Datum
krl_requests(PG_FUNCTION_ARGS)
{
	FuncCallContext *calls;
	int		   *next;
	int			procno;
	uint64		state;
	const KrlSpan *span;
	Datum		values[4];
	bool		nulls[4] = {false};

	krl_require_shared();
	if (SRF_IS_FIRSTCALL())
		begin_requests(fcinfo);
	calls = SRF_PERCALL_SETUP();
	next = calls->user_fctx;
	procno = next_waiting(*next, &state);
	if (procno < 0)
		SRF_RETURN_DONE(calls);
	*next = procno + 1;
	span = &krl_request_of(procno)->spans[KRL_PLACE(state)];
	values[0] = Int32GetDatum(ProcGlobal->allProcs[procno].pid);
	values[1] = Int64GetDatum((int64) span->lo);
	values[2] = Int64GetDatum((int64) span->hi);
	values[3] = BoolGetDatum(KRL_PHASE(state) == KRL_RUNS);
	SRF_RETURN_NEXT(calls, HeapTupleGetDatum(heap_form_tuple(calls->tuple_desc, values, nulls)));
}

PG_FUNCTION_INFO_V1(krl_clients);

/* krl.clients(), as krl-server prints them */
Datum
krl_clients(PG_FUNCTION_ARGS)
{
	StringInfoData printed;
	char		part[1024];
	size_t		count;
	FILE	   *program;

	krl_require_shared();
	if (strcmp(krl_status_address, "off") == 0)
		ereport(ERROR,
				(errcode(ERRCODE_OBJECT_NOT_IN_PREREQUISITE_STATE),
				 errmsg("krl's server does not show its status"),
				 errhint("Set krl.server_status, such as to 127.0.0.1:7401, and restart the server.")));
	program = OpenPipeStream(psprintf("'%s' clients --json '%s'", krl_server_program, krl_status_address),
							 PG_BINARY_R);
	if (!program)
		ereport(ERROR,
				(errcode_for_file_access(),
				 errmsg("could not execute \"%s\": %m", krl_server_program)));
	initStringInfo(&printed);
	while ((count = fread(part, 1, sizeof(part), program)) > 0)
		appendBinaryStringInfo(&printed, part, count);
	if (ClosePipeStream(program) != 0)
		ereport(ERROR,
				(errcode(ERRCODE_CONNECTION_FAILURE),
				 errmsg("krl's server does not show its status at \"%s\"", krl_status_address),
				 errhint("The log of PostgreSQL has what the program printed.")));
	PG_RETURN_TEXT_P(cstring_to_text_with_len(printed.data, printed.len));
}
