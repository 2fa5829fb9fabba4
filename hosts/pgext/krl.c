/*-------------------------------------------------------------------------
 *
 * krl.c
 *	  Caches of tables, which are never stale, by krl: the settings of the
 *	  extension, and its start.
 *
 *-------------------------------------------------------------------------
 */
#include "postgres.h"

#include <limits.h>

#include "fmgr.h"
#include "miscadmin.h"
#include "utils/guc.h"

#include "changes.h"
#include "definitions.h"
#include "krl_pg.h"

PG_MODULE_MAGIC;

PGDLLEXPORT void _PG_init(void);

/* Fifteen tables of 4,096 stripes and a mark, which a server of krl has room for by default. */
#define DEFAULT_STRIPES (15 * 4097)

#define MAX_MS (3600 * 1000)

char	   *krl_servers;
char	   *krl_table_name;
char	   *krl_tls_authority;
char	   *krl_tls_certificate;
char	   *krl_tls_key;
char	   *krl_server_program;
char	   *krl_server_users;
char	   *krl_status_address;
static char *directory;
int			krl_workers;
int			krl_first_client;
int			krl_stripes;
int			krl_timeout;
int			krl_lease;
int			krl_recall_limit;

/* Where the lock files of the workers and the store are: next to the data directory by default. */
char *
krl_directory_path(void)
{
	return directory[0] ? pstrdup(directory) : psprintf("%s.krl", DataDir);
}

/*
 * A base backup copies the data directory.  Two processes with copies of one
 * lock file would be the same client of krl, of the same incarnation, and two
 * servers with copies of one store would give the same locks.
 */
static bool
check_directory(char **value, void **extra, GucSource source)
{
	char	   *path;
	bool		is_within;

	if ((*value)[0] == '\0' || !DataDir)
		return true;
	path = make_absolute_path(*value);
	is_within = path && path_is_prefix_of_path(DataDir, path);
	free(path);
	if (is_within)
	{
		GUC_check_errdetail("It lies within the data directory, which base backups copy.");
		return false;
	}
	return true;
}

static void
define_connection_settings(void)
{
	DefineCustomStringVariable("krl.servers",
							   "The addresses of krl's servers, with commas between them.",
							   "If there is none, a worker starts krl's server.",
							   &krl_servers, "", PGC_POSTMASTER, 0, NULL, NULL, NULL);
	DefineCustomStringVariable("krl.server_program",
							   "The program of krl's server, which a worker starts.",
							   NULL, &krl_server_program, KRL_SERVER_PROGRAM,
							   PGC_POSTMASTER, GUC_SUPERUSER_ONLY, NULL, NULL, NULL);
	DefineCustomStringVariable("krl.server_users",
							   "The users of this machine who may be clients of the server that a "
							   "worker starts.",
							   "As krl-server takes them by its option --users.",
							   &krl_server_users, "",
							   PGC_POSTMASTER, GUC_SUPERUSER_ONLY, NULL, NULL, NULL);
	DefineCustomStringVariable("krl.server_status",
							   "Where the server that a worker starts shows its status, or \"off\".",
							   "As krl-server takes it by its option --status.",
							   &krl_status_address, "off",
							   PGC_POSTMASTER, 0, NULL, NULL, NULL);
	DefineCustomStringVariable("krl.table",
							   "The name of krl's table in the certificates of its servers.",
							   NULL, &krl_table_name, "", PGC_POSTMASTER, 0, NULL, NULL, NULL);
	DefineCustomStringVariable("krl.tls_authority",
							   "The file with the certificate of the authority of krl's servers.",
							   "A reload of the configuration reads the files again.",
							   &krl_tls_authority, "",
							   PGC_POSTMASTER, GUC_SUPERUSER_ONLY, NULL, NULL, NULL);
	DefineCustomStringVariable("krl.tls_certificate",
							   "The file with the certificate that krl's workers show.",
							   NULL, &krl_tls_certificate, "",
							   PGC_POSTMASTER, GUC_SUPERUSER_ONLY, NULL, NULL, NULL);
	DefineCustomStringVariable("krl.tls_key",
							   "The file with the key of that certificate.",
							   NULL, &krl_tls_key, "",
							   PGC_POSTMASTER, GUC_SUPERUSER_ONLY, NULL, NULL, NULL);
	DefineCustomStringVariable("krl.directory",
							   "The directory of the lock files of krl's workers, and of the store "
							   "of the server that one starts.",
							   "By default it lies next to the data directory, and has its name "
							   "with \".krl\".",
							   &directory, "", PGC_POSTMASTER, GUC_SUPERUSER_ONLY,
							   check_directory, NULL, NULL);
	DefineCustomIntVariable("krl.lease",
							"The longest lease that krl's servers grant.",
							"krl.suspend waits until all leases have ended.",
							&krl_lease, 10 * 1000, 1, MAX_MS,
							PGC_SIGHUP, GUC_UNIT_MS, NULL, NULL, NULL);
}

static void
define_worker_settings(void)
{
	DefineCustomIntVariable("krl.workers",
							"The number of workers that take rows back from caches.",
							NULL, &krl_workers, 4, 1, KRL_MAX_WORKERS,
							PGC_POSTMASTER, 0, NULL, NULL, NULL);
	DefineCustomIntVariable("krl.first_client",
							"The number of the first worker among the clients of krl.",
							NULL, &krl_first_client, KRLC_NUMBERS - KRL_MAX_WORKERS,
							0, KRLC_NUMBERS - KRL_MAX_WORKERS,
							PGC_POSTMASTER, 0, NULL, NULL, NULL);
	DefineCustomIntVariable("krl.stripes",
							"The most stripes of all cached tables together, and one for each.",
							"krl's servers need room for two rows more.",
							&krl_stripes, DEFAULT_STRIPES, 1, KRL_MAX_STRIPES,
							PGC_POSTMASTER, 0, NULL, NULL, NULL);
	DefineCustomIntVariable("krl.timeout",
							"How long a commit waits until its rows are taken back from caches.",
							"After that the transaction is rolled back.",
							&krl_timeout, 15 * 1000, 1, MAX_MS,
							PGC_USERSET, GUC_UNIT_MS, NULL, NULL, NULL);
	DefineCustomIntVariable("krl.recall_limit",
							"The most stripes of a table that a transaction takes back one by one.",
							"One that changes more takes all rows of the table back.",
							&krl_recall_limit, 64, 1, KRL_MAX_STRIPES,
							PGC_USERSET, 0, NULL, NULL, NULL);
}

void
_PG_init(void)
{
	/* In any other process that loads the library, its functions report that krl was not loaded. */
	if (!process_shared_preload_libraries_in_progress)
		return;
	define_connection_settings();
	define_worker_settings();
#if PG_VERSION_NUM >= 150000
	MarkGUCPrefixReserved("krl");
#else
	EmitWarningsOnPlaceholders("krl");
#endif
	krl_shared_init();
	krl_changes_init();
	krl_definitions_init();
	krl_workers_init();
}
