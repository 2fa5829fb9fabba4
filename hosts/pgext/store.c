/*-------------------------------------------------------------------------
 *
 * store.c
 *	  What the data directory keeps: which store of krl this cluster uses,
 *	  and whether the cluster commits without krl.
 *
 * A store of krl is named by random bytes, which a row of it has.  If krl's
 * server has another store than before, readers may still keep rows by the
 * earlier server.  So a cluster takes another store only while it is
 * suspended: krl.suspend waits until no reader keeps anything.
 *
 * These files belong to the data, so a base backup has them.  The lock files of
 * the workers belong to a process of a machine, and lie elsewhere.
 *
 *-------------------------------------------------------------------------
 */
#include "postgres.h"

#include <sys/stat.h>

#include "storage/fd.h"
#include "storage/lwlock.h"

#include "krl_pg.h"

/* In the data directory, which is the working directory of each process. */
#define STORE_FILE "krl_store"
#define NEW_STORE_FILE "krl_store.new"
#define SUSPENDED_FILE "krl_suspended"

#define NAME_BYTES 16
#define NAME_DIGITS (2 * NAME_BYTES)

/* How long a worker waits for an answer of krl's server. */
#define ANSWER_MS 10000

/* As a file has it. */
typedef struct Store
{
	char		name[NAME_DIGITS + 1];	/* in hexadecimal digits */
	uint64		end;			/* the stripes below this have rows */
} Store;

static bool
read_store(const char *path, Store *store)
{
	FILE	   *file = AllocateFile(path, "r");
	bool		is_read;

	if (!file)
	{
		if (errno == ENOENT)
			return false;
		ereport(ERROR,
				(errcode_for_file_access(), errmsg("could not open file \"%s\": %m", path)));
	}
	is_read = fscanf(file, "%32s " UINT64_FORMAT, store->name, &store->end) == 2;
	FreeFile(file);
	if (!is_read || strspn(store->name, "0123456789abcdef") != NAME_DIGITS)
		ereport(ERROR,
				(errcode(ERRCODE_DATA_CORRUPTED),
				 errmsg("file \"%s\" does not name a store of krl", path)));
	return true;
}

/* Replaces the file.  After this call it is on the disk. */
static void
write_file(const char *path, const char *content)
{
	char	   *next = psprintf("%s.tmp", path);
	FILE	   *file = AllocateFile(next, "w");

	if (!file || fputs(content, file) < 0 || fflush(file) != 0 || pg_fsync(fileno(file)) != 0)
		ereport(ERROR,
				(errcode_for_file_access(), errmsg("could not write file \"%s\": %m", next)));
	FreeFile(file);
	(void) durable_rename(next, path, ERROR);
	pfree(next);
}

static void
write_store(const char *path, const Store *store)
{
	char	   *content = psprintf("%s " UINT64_FORMAT "\n", store->name, store->end);

	write_file(path, content);
	pfree(content);
}

static void
draw_store(Store *store)
{
	uint8		bytes[NAME_BYTES];

	if (!pg_strong_random(bytes, sizeof(bytes)))
		ereport(ERROR,
				(errcode(ERRCODE_INTERNAL_ERROR), errmsg("could not generate random values")));
	for (int i = 0; i < NAME_BYTES; i++)
		snprintf(store->name + 2 * i, 3, "%02x", bytes[i]);
	store->end = 0;
}

/* Reads the name of the store of krl's server into found, which is empty if it has none. */
static bool
read_name(krlc_client *client, char *found, krlc_error *error)
{
	krlc_row	row;
	krlc_rows  *rows = krlc_rows_new();
	size_t		count = 0;
	uint32		code = KRLC_OUT_OF_MEMORY;

	found[0] = '\0';
	if (rows)
		code = krlc_read(client, KRL_STORE_KEY, KRL_STORE_KEY + 1, rows, ANSWER_MS, error);
	if (code == KRLC_OK && krlc_rows_get(rows, &count) && count == 1)
	{
		row = *krlc_rows_get(rows, &count);
		for (uint64 i = 0; i < Min(row.length, NAME_BYTES); i++)
			snprintf(found + 2 * i, 3, "%02x", row.bytes[i]);
	}
	krlc_rows_free(rows);
	return code == KRLC_OK;
}

/* Gives the store of krl's server this name, if it has none. */
static bool
write_name(krlc_client *client, const char *name, krlc_error *error)
{
	uint8		bytes[NAME_BYTES];
	uint32		code;

	for (int i = 0; i < NAME_BYTES; i++)
	{
		unsigned int byte;

		(void) sscanf(name + 2 * i, "%2x", &byte);
		bytes[i] = (uint8) byte;
	}
	code = krlc_insert(client, KRL_STORE_KEY, bytes, sizeof(bytes), ANSWER_MS, error);
	if (code == KRLC_EXISTS)
		strlcpy(error->sentence, "another cluster uses krl's server", sizeof(error->sentence));
	return code == KRLC_OK;
}

/* At the first start the file has the name before the store has it: a crash may come between. */
static bool
name_store(krlc_client *client, const char *found, krlc_error *error)
{
	Store		store;

	if (!read_store(NEW_STORE_FILE, &store))
	{
		draw_store(&store);
		write_store(NEW_STORE_FILE, &store);
	}
	if (found[0] == '\0' && !write_name(client, store.name, error))
		return false;
	if (found[0] != '\0' && strcmp(found, store.name) != 0)
	{
		strlcpy(error->sentence, "another cluster uses krl's server", sizeof(error->sentence));
		return false;
	}
	(void) durable_rename(NEW_STORE_FILE, STORE_FILE, ERROR);
	return true;
}

/* Makes the rows of all stripes in another store.  Those that an earlier try has made stay. */
static bool
make_rows(krlc_client *client, uint64 end, krlc_error *error)
{
	KrlSpan		left = {0, end};

	pg_atomic_write_u64(&krl_shared->rows_wanted, end);
	while (left.lo < left.hi)
	{
		if (krl_must_end() || krl_insert_rows(client, &left, error) != KRLC_OK)
			return false;
		if (left.lo > pg_atomic_read_u64(&krl_shared->rows_made))
			pg_atomic_write_u64(&krl_shared->rows_made, left.lo);
	}
	return true;
}

/* While the cluster is suspended it takes any store, and makes the rows of its stripes there. */
static bool
take_other_store(krlc_client *client, const char *found, uint64 end, krlc_error *error)
{
	Store		store;

	draw_store(&store);
	if (found[0] == '\0' && !write_name(client, store.name, error))
		return false;
	if (found[0] != '\0')
		strlcpy(store.name, found, sizeof(store.name));
	if (!make_rows(client, end, error))
		return false;
	store.end = end;
	write_store(STORE_FILE, &store);
	ereport(LOG, (errmsg("krl: the cluster uses another store of krl from now on")));
	return true;
}

/*
 * Whether the store of krl's server is the one that this cluster uses.  The
 * first worker names the store, or takes another one, before the others join.
 */
bool
krl_store_is_own(krlc_client *client, int worker, krlc_error *error)
{
	Store		store = {.end = 0};
	char		found[NAME_DIGITS + 1];
	bool		has_store = read_store(STORE_FILE, &store);

	if (!read_name(client, found, error))
		return false;
	if (has_store && strcmp(store.name, found) == 0)
		return true;
	if (worker == 0 && pg_atomic_read_u32(&krl_shared->is_suspended))
		return take_other_store(client, found, store.end, error);
	if (worker == 0 && !has_store)
		return name_store(client, found, error);
	strlcpy(error->sentence, "krl's server does not have the store of this cluster",
			sizeof(error->sentence));
	return false;
}

/* The stripes below this one have rows from now on. */
void
krl_store_note_rows(uint64 end)
{
	Store		store;

	LWLockAcquire(AddinShmemInitLock, LW_EXCLUSIVE);
	if (read_store(STORE_FILE, &store) && store.end < end)
	{
		store.end = end;
		write_store(STORE_FILE, &store);
	}
	LWLockRelease(AddinShmemInitLock);
}

bool
krl_store_is_suspended(void)
{
	struct stat status;

	return stat(SUSPENDED_FILE, &status) == 0;
}

void
krl_store_suspend(void)
{
	write_file(SUSPENDED_FILE, "");
}

void
krl_store_resume(void)
{
	if (krl_store_is_suspended())
		(void) durable_unlink(SUSPENDED_FILE, ERROR);
}
