/*-------------------------------------------------------------------------
 *
 * server.c
 *	  krl's server, which a background worker starts and watches unless
 *	  krl.servers has the addresses of others.
 *
 * Its store lies in krl.directory, which no base backup copies: a copy of the
 * store next to the store itself would be two servers that give the same locks.
 *
 *-------------------------------------------------------------------------
 */
#include "postgres.h"

#include <fcntl.h>
#include <signal.h>
#include <sys/prctl.h>
#include <sys/wait.h>
#include <unistd.h>

#include "miscadmin.h"
#include "pgstat.h"
#include "postmaster/bgworker.h"
#include "postmaster/interrupt.h"
#include "postmaster/postmaster.h"
#include "storage/fd.h"
#include "storage/ipc.h"
#include "storage/latch.h"
#include "storage/pmsignal.h"
#include "utils/guc.h"
#include "utils/memutils.h"
#include "utils/varlena.h"

#include "krl_pg.h"

/* How long the worker waits before it starts a server again that has ended. */
#define PAUSE_MS 1000

/* How long a server may take to shut down cleanly. */
#define STOP_MS 5000

#define IDLE_MS 1000
#define POLL_MS 10

#define MAX_LINE 1000

static pid_t server = 0;		/* 0 if it does not run */
static int	lease_of_server;	/* in milliseconds */
static int	log_end = -1;		/* of the pipe into which it writes its log */
static char line[MAX_LINE + 1];
static int	line_length = 0;

/* Next to the socket of PostgreSQL, if that has one. */
static char *
socket_path(void)
{
	List	   *directories = NIL;

	if (SplitDirectoriesString(pstrdup(Unix_socket_directories), ',', &directories) &&
		directories != NIL && is_absolute_path((char *) linitial(directories)))
		return psprintf("%s/.s.krl.%d", (char *) linitial(directories), PostPortNumber);
	return psprintf("%s/socket", krl_directory_path());
}

/* Where krl's servers are, for workers and readers. */
const char *
krl_server_address(void)
{
	return krl_servers[0] ? krl_servers : psprintf("unix:%s", socket_path());
}

static void
write_line(void)
{
	line[line_length] = '\0';
	ereport(LOG, (errmsg_internal("krl-server: %s", line)));
	line_length = 0;
}

static void
add_to_line(char next)
{
	if (next == '\n' || line_length == MAX_LINE)
		write_line();
	if (next != '\n')
		line[line_length++] = next;
}

/* Copies what the server has logged to PostgreSQL's log. */
static void
copy_log(void)
{
	char		part[1024];
	ssize_t		count;

	while (log_end >= 0)
	{
		count = read(log_end, part, sizeof(part));
		if (count < 0 && errno == EINTR)
			continue;
		if (count < 0 && errno == EAGAIN)
			return;
		for (ssize_t i = 0; i < count; i++)
			add_to_line(part[i]);
		if (count > 0)
			continue;
		(void) close(log_end);
		log_end = -1;
	}
}

/* In the new process: it ends with the worker that started it, however that ends. */
static void
become_server(char **words, int log_file, pid_t worker)
{
	const int	signals[] = {SIGHUP, SIGINT, SIGTERM, SIGPIPE, SIGUSR1, SIGUSR2, SIGCHLD};
	sigset_t	none;

	(void) setsid();
	if (prctl(PR_SET_PDEATHSIG, SIGKILL) != 0 || getppid() != worker)
		_exit(1);
	for (int i = 0; i < (int) lengthof(signals); i++)
		pqsignal(signals[i], SIG_DFL);
	sigemptyset(&none);
	sigprocmask(SIG_SETMASK, &none, NULL);
	(void) dup2(open("/dev/null", O_RDONLY), STDIN_FILENO);
	(void) dup2(log_file, STDOUT_FILENO);
	(void) dup2(log_file, STDERR_FILENO);
	for (int file = STDERR_FILENO + 1; file < max_files_per_process + 100; file++)
		(void) close(file);
	/* It is not the service that a service manager may wait for. */
	(void) unsetenv("NOTIFY_SOCKET");
	(void) execvp(words[0], words);
	fprintf(stderr, "could not execute \"%s\": %s\n", words[0], strerror(errno));
	fflush(stderr);
	_exit(127);
}

static void
start_server(void)
{
	char	   *directory = krl_directory_path();
	bool		has_users = krl_server_users[0] != '\0';
	char	   *words[] = {
		krl_server_program, "serve", "--create", "--status", krl_status_address,
		"--listen", psprintf("unix:%s", socket_path()),
		"--store", psprintf("%s/krl.db", directory),
		"--lease", psprintf("%dms", krl_lease),
		"--room", psprintf("%d", krl_stripes + 2),
		has_users ? "--users" : NULL, krl_server_users, NULL
	};
	int			ends[2];

	(void) MakePGDirectory(directory);
	if (pipe(ends) != 0 || !pg_set_noblock(ends[0]))
		ereport(ERROR, (errmsg("could not make a pipe for the log of krl's server: %m")));
	lease_of_server = krl_lease;
	fflush(NULL);
	server = fork();
	if (server == 0)
		become_server(words, ends[1], MyProcPid);
	(void) close(ends[1]);
	log_end = ends[0];
	if (server > 0)
		return;
	ereport(LOG, (errmsg("krl: could not start krl's server: %m")));
	server = 0;
}

/*
 * Whether the server may run.  If krl.suspend stops it, it does that before it
 * looks whether the server runs.
 */
static bool
may_run(void)
{
	pg_atomic_write_u32(&krl_shared->server_runs, true);
	pg_memory_barrier();
	if (!pg_atomic_read_u32(&krl_shared->server_is_stopped))
		return true;
	pg_atomic_write_u32(&krl_shared->server_runs, server != 0);
	return false;
}

/* If the server has ended, notes that.  Returns whether it has. */
static bool
notice_end(void)
{
	int			status;

	if (server == 0 || waitpid(server, &status, WNOHANG) != server)
		return false;
	copy_log();
	ereport(LOG, (errmsg("krl: krl's server ended: %s", wait_result_to_str(status))));
	server = 0;
	pg_atomic_write_u32(&krl_shared->server_runs, false);
	return true;
}

/* Shuts the server down cleanly, unless PostgreSQL itself was killed. */
static void
stop_server(void)
{
	if (server == 0)
		return;
	(void) kill(server, PostmasterIsAlive() ? SIGTERM : SIGKILL);
	for (int waited = 0; !notice_end(); waited += POLL_MS)
	{
		if (waited == STOP_MS)
			(void) kill(server, SIGKILL);
		pg_usleep(POLL_MS * 1000L);
	}
}

static bool
runs_any_worker(void)
{
	for (int number = 0; number < krl_workers; number++)
		if (pg_atomic_read_u32(&krl_shared->workers[number].procno) != KRL_NO_PROCESS)
			return true;
	return false;
}

/*
 * If PostgreSQL stops, its workers leave krl at the same time.  The next server
 * waits until the lease of one has ended that could not.
 */
static void
let_workers_leave(void)
{
	for (int waited = 0; waited < STOP_MS && runs_any_worker() && PostmasterIsAlive(); waited += POLL_MS)
	{
		if (notice_end() || server == 0)
			return;
		copy_log();
		pg_usleep(POLL_MS * 1000L);
	}
}

/* Returns how long the worker may sleep. */
static long
watch(void)
{
	CHECK_FOR_INTERRUPTS();
	if (ConfigReloadPending)
	{
		ConfigReloadPending = false;
		ProcessConfigFile(PGC_SIGHUP);
	}
	copy_log();
	if (notice_end())
		return PAUSE_MS;
	if (lease_of_server != krl_lease || !may_run())
		stop_server();
	if (server == 0 && may_run())
		start_server();
	return IDLE_MS;
}

static void
on_child(SIGNAL_ARGS)
{
	int			saved = errno;

	SetLatch(MyLatch);
	errno = saved;
}

static void
on_exit_of_worker(int code, Datum arg)
{
	pg_atomic_write_u32(&krl_shared->server_procno, KRL_NO_PROCESS);
	stop_server();
}

void
krl_server_main(Datum number)
{
	MemoryContext of_step = AllocSetContextCreate(TopMemoryContext, "krl: one step of the worker",
												  ALLOCSET_DEFAULT_SIZES);

	pqsignal(SIGTERM, SignalHandlerForShutdownRequest);
	pqsignal(SIGHUP, SignalHandlerForConfigReload);
	pqsignal(SIGCHLD, on_child);
	BackgroundWorkerUnblockSignals();
	before_shmem_exit(on_exit_of_worker, 0);
	pg_atomic_write_u32(&krl_shared->server_procno, krl_my_procno());
	while (!ShutdownRequestPending)
	{
		int			events = WL_LATCH_SET | WL_TIMEOUT | WL_EXIT_ON_PM_DEATH;
		long		sleep;

		MemoryContextSwitchTo(of_step);
		MemoryContextReset(of_step);
		sleep = watch();
		if (log_end >= 0)
			events |= WL_SOCKET_READABLE;
		(void) WaitLatchOrSocket(MyLatch, events, log_end, sleep, PG_WAIT_EXTENSION);
		ResetLatch(MyLatch);
	}
	let_workers_leave();
	proc_exit(1);				/* it is started again, unless PostgreSQL stops */
}

/* Has the worker stop the server, and waits until it has ended. */
void
krl_stop_server(void)
{
	pg_atomic_write_u32(&krl_shared->server_is_stopped, true);
	pg_memory_barrier();
	while (pg_atomic_read_u32(&krl_shared->server_runs))
	{
		krl_set_latch(pg_atomic_read_u32(&krl_shared->server_procno));
		krl_wait(POLL_MS);
	}
}

/* The worker may start the server again. */
void
krl_let_server_run(void)
{
	pg_atomic_write_u32(&krl_shared->server_is_stopped, false);
	krl_set_latch(pg_atomic_read_u32(&krl_shared->server_procno));
}
