/*-------------------------------------------------------------------------
 *
 * rows.c
 *	  The rows of krl by which tables are cached, as workers make them.
 *
 * krl's server syncs its store for each row that is made.  So rows that are
 * there are only looked for, and the others are made in parts, of which each
 * stays whatever becomes of the next one.
 *
 *-------------------------------------------------------------------------
 */
#include "postgres.h"

#include "krl_pg.h"

/* How long krl's client waits for the rows that there are. */
#define READ_MS 5000

/* The keys of a part, and how long their writes may take: so often a session sees how far its rows are. */
#define ROWS_OF_A_PART 32
#define WRITES_MS 1000

/* Writes an insert for each key of the part that has no row, and how many these are. */
static uint32
find_missing(krlc_client *client, KrlSpan part, krlc_write *writes, int *nwrites, krlc_error *error)
{
	krlc_rows  *rows = krlc_rows_new();
	uint32		code = KRLC_OUT_OF_MEMORY;
	size_t		left;
	const krlc_row *next;

	*nwrites = 0;
	if (rows)
		code = krlc_read_once(client, part.lo, part.hi, rows, READ_MS, error);
	next = krlc_rows_get(rows, &left);
	for (uint64 key = part.lo; code == KRLC_OK && key < part.hi; key++)
	{
		if (left == 0 || next->key != key)
			writes[(*nwrites)++] = (krlc_write) {
				.kind = KRLC_INSERT,.outcome = KRLC_NOT_MADE,.row = {.key = key}
			};
		else
		{
			next++;
			left--;
		}
	}
	krlc_rows_free(rows);
	return code;
}

/*
 * Has a row made for each of the first ROWS_OF_A_PART keys of the span that
 * has none.  From span->lo on are then those that may still have none.
 */
uint32
krl_insert_rows(krlc_client *client, KrlSpan *span, krlc_error *error)
{
	KrlSpan		part = {span->lo, Min(span->lo + ROWS_OF_A_PART, span->hi)};
	krlc_write	writes[ROWS_OF_A_PART];
	int			nwrites;
	int			made = 0;
	uint32		code = find_missing(client, part, writes, &nwrites, error);

	if (code != KRLC_OK)
		return code;
	if (nwrites > 0)
		code = krlc_write_all(client, writes, nwrites, WRITES_MS, error);
	while (made < nwrites && (writes[made].outcome == KRLC_OK || writes[made].outcome == KRLC_EXISTS))
		made++;
	span->lo = made < nwrites ? writes[made].row.key : part.hi;
	if (code != KRLC_OK || made == nwrites)
		return code;
	strlcpy(error->sentence, "krl's server has no room for so many rows: start it with a "
			"greater --room", sizeof(error->sentence));
	return KRLC_FULL;
}
