/* krl: a key-range lock server, and clients that answer scans from what they hold, behind handles.
 *
 * The host owns the sockets, the disk and the threads. It hands each message to `krl_client_step` or
 * `krl_server_step`, keeps what a server's step reports on its disk, confirms that with `krl_confirm`, and takes
 * what may be sent with `krl_take`.
 *
 * A handle serves one call at a time, on any thread. If several threads use it, each call sees what the one before
 * did: a mutex does that, or the start or the end of a thread. Two threads may use two handles at once. No call waits.
 * Many threads may read one client at once: see `krl_reader_of`.
 *
 * No pointer may be null but one to no bytes, rows, records, clients, bounds or parts. A length or a room is that of
 * the memory that its pointer points to. The rooms that a call writes overlap no other argument. Any other number may
 * be anything: each call tests what it is given and reports by its code what was wrong. A call whose code is neither
 * KRL_DONE nor KRL_UNSAID has changed nothing, but that `krl_leased_scan_answer` answers each scan once.
 *
 * No call takes more than 32,000 bytes of stack.
 */
#ifndef KRL_H
#define KRL_H

#include "krl_types.h"

#ifdef __cplusplus
extern "C" {
#endif

/* The KRL_VERSION of the library: a host that loads it as it runs compares it with the header's. */
uint32_t krl_version(void);

/* Clients.
 *
 * Each of these calls, but for open, answers KRL_CLOSED if the handle is closed, KRL_NO_CLIENT if it keeps a
 * server, and KRL_GONE if its client has left; before it looks at anything else. What it sends waits for
 * `krl_take`.
 */

/* Starts a client of this number in a closed handle, and sends Hello. The number is from 0 to 63, and the incarnation
 * from 1 to KRL_END: greater than in any earlier start of that number. It is the first note of the handle: nothing can
 * be taken before the host has it on its disk and confirms it. Refused, in this order, by KRL_OPEN_ALREADY,
 * KRL_BAD_CLIENT, KRL_BAD_INCARNATION (0), KRL_SPENT (above KRL_END), KRL_OUT_OF_MEMORY. */
krl_reply krl_client_open(krl_handle *handle, uint64_t number, uint64_t incarnation);

/* Gives the client the bytes of one message. One that is not meant for it is passed over. Refused by
 * KRL_BAD_MESSAGE, KRL_OUT_OF_MEMORY. */
krl_reply krl_client_step(krl_handle *handle, const uint8_t *bytes, size_t length);

/* Sends again what is not answered: Hello, a report, a lock request, a write. A client that only reads ticks too: a
 * server that has started again waits for its report. Refused by KRL_OUT_OF_MEMORY. */
krl_reply krl_client_tick(krl_handle *handle);

/* Asks for a lock of this mode on the slot of `point`, and on the slots after it that begin below `hi`, as far as
 * they are free. The status shows what became of it. Refused, in this order, by KRL_BAD_MODE, KRL_BAD_POINT,
 * KRL_BAD_SPAN (`hi` not above the point, or above KRL_TOP), KRL_NOT_JOINED, KRL_BUSY, KRL_SPENT, KRL_OUT_OF_MEMORY. */
krl_reply krl_client_lock(krl_handle *handle, uint64_t point, uint64_t hi, uint32_t mode);

/* Ask for a change of the index; the status shows its number and what became of it. An insert needs a range part I or X
 * at the key; a put the key part X; a delete the key part X, and the range part X at the key and one past it: these two
 * points may be of two slots, and a lock that is asked for at the key may be granted for the first one only. Then the
 * next one is asked for one past the key. KRL_NOT_HELD does not name the point. Refused, in this order, by
 * KRL_BAD_VALUE, KRL_BAD_POINT, KRL_NOT_JOINED, KRL_WRITING, KRL_NOT_HELD, KRL_SPENT, KRL_OUT_OF_MEMORY. */
krl_reply krl_client_insert(krl_handle *handle, uint64_t key, const uint8_t *bytes, size_t length);
krl_reply krl_client_put(krl_handle *handle, uint64_t key, const uint8_t *bytes, size_t length);
krl_reply krl_client_delete(krl_handle *handle, uint64_t key);

/* Ask for a change of the index and, in the same message, for the lock that it needs. If nobody waits for the slot of
 * the key and nobody's lock there forbids that lock, the server grants it and makes the change in one step. Otherwise
 * it judges the change by the locks that the client holds: the outcome may be KRL_OUTCOME_NOT_HELD, and the client has
 * to ask for the lock then. The answer states what the client holds on the key's slot. A client that holds the lock
 * already may make these calls too. Refused as the calls above, but never by KRL_NOT_HELD. A delete needs the locks of
 * two slots and takes none, so there is no such call for it. */
krl_reply krl_client_take_insert(krl_handle *handle, uint64_t key, const uint8_t *bytes, size_t length);
krl_reply krl_client_take_put(krl_handle *handle, uint64_t key, const uint8_t *bytes, size_t length);

/* Answers from the client's own cache, with no message, the entries with keys from `lo` on below `hi`, in key order:
 * that range of the server's index at this moment. They go into `rows`, and the detail is their count. Otherwise
 * KRL_MISS, KRL_PENDING, or KRL_TOO_SHORT if there are more than `room`. Refused by KRL_BAD_SPAN. It takes no
 * memory. */
krl_reply krl_client_scan(krl_handle *handle, uint64_t lo, uint64_t hi, krl_row *rows, size_t room);

/* Gives back what the client holds of the points from `lo` on below `hi`. Refused, in this order, by KRL_BAD_SPAN,
 * KRL_NOT_JOINED, KRL_WRITING, KRL_PINNED, KRL_OUT_OF_MEMORY. */
krl_reply krl_client_forget(krl_handle *handle, uint64_t lo, uint64_t hi);

/* Gives back, of what the client holds of the points from `lo` on below `hi`, all that is above the mode `keep`: at
 * each of these points the client continues to hold the meet of what it held and `keep`. With KRL_N that is
 * `krl_client_forget`. A pin keeps all that is held of its points, so a span that meets one is refused whatever `keep`
 * is. Refused, in this order, by KRL_BAD_MODE, KRL_BAD_SPAN, KRL_NOT_JOINED, KRL_WRITING, KRL_PINNED,
 * KRL_OUT_OF_MEMORY; then nothing has changed. */
krl_reply krl_client_lower(krl_handle *handle, uint64_t lo, uint64_t hi, uint32_t keep);

/* Pins the points from `lo` on below `hi`: no callback, no forget and no lower takes what is held of them. The detail
 * is the pin, from 0 to 7. Refused, in this order, by KRL_BAD_SPAN, KRL_TOO_MANY_PINS. */
krl_reply krl_client_pin(krl_handle *handle, uint64_t lo, uint64_t hi);

/* Frees a pin. Refused by KRL_NOT_HELD. */
krl_reply krl_client_unpin(krl_handle *handle, uint64_t pin);

/* What the client believes that it holds at a point: N past KRL_END. */
krl_held krl_client_held(krl_handle *handle, uint64_t point);

/* What the client shows of itself. */
krl_client_state krl_client_status(krl_handle *handle);

/* Sends Bye, which gives back all that the client holds. The client is gone then, and only this call, `krl_take` and
 * `krl_close` do anything more: this call sends Bye again, which may be lost as any message. Refused by
 * KRL_OUT_OF_MEMORY. It never answers KRL_GONE. */
krl_reply krl_client_leave(krl_handle *handle);

/* Many readers of one client.
 *
 * A reader lets a thread read what a handle keeps while other threads read it too. A call that takes a reader may run
 * at the same time as any other such call, each with a reader of its own, and never at the same time as a call that
 * takes the handle. A lock for readers and writers does that: the one kind of call runs under its shared side, and the
 * other kind under its exclusive side. Then no message that gives something up can leave while a scan still sees it.
 *
 * A call with a reader changes nothing, takes no memory, and answers what the call of the same name with the handle
 * answers. It answers KRL_CLOSED if the reader is closed.
 */

/* A reader of what the handle keeps. It is made while no call runs that takes the handle, and serves until the next
 * such call begins. Then it must not be used any more, and a new one is made. */
static inline krl_reader krl_reader_of(const krl_handle *handle) {
    krl_reader reader = {handle->is_open, handle->at};
    return reader;
}

/* `krl_client_scan`, by a reader. */
krl_reply krl_reader_scan(krl_reader *reader, uint64_t lo, uint64_t hi, krl_row *rows, size_t room);

/* The same for a client that has a lease: what the scan answers, `krl_leased_scan_answer` reports. */
krl_leased_scan krl_reader_scan_leased(krl_reader *reader, uint64_t lo, uint64_t hi, krl_row *rows, size_t room);

/* `krl_client_held`, by a reader. */
krl_held krl_reader_held(krl_reader *reader, uint64_t point);

/* `krl_client_status`, by a reader. */
krl_client_state krl_reader_status(krl_reader *reader);

/* Servers.
 *
 * Each of these calls, but for open, answers KRL_CLOSED if the handle is closed, and KRL_NO_SERVER if it keeps
 * a client; before it looks at anything else.
 */

/* Starts a server in a closed handle with room for so many entries, from 1 to KRL_MAX_ROOM (KRL_DEFAULT_ROOM suits
 * most), and a reach, from 1 to KRL_MAX_REACH (KRL_DEFAULT_REACH suits most), on what was kept: the epoch (0 at first),
 * the entries in any order, and the records in order of first registration. Room and reach may differ from those of an
 * earlier start. All memory for entries is taken here; what none has used is not touched. One grant takes at most as
 * many slots as the reach: a client's host has to take frames of 43 bytes and 51 for each slot. The detail is the new
 * epoch, one more, which is the first note of the handle. Refused, in this order, by KRL_OPEN_ALREADY, KRL_BAD_ROOM,
 * KRL_BAD_REACH, KRL_SPENT (an epoch of KRL_END or more), KRL_BAD_VALUE, KRL_BAD_RECORD, KRL_FULL (more entries than
 * room), and the first entry that has a key of KRL_END or more, by KRL_BAD_KEY, or one that stands before, by
 * KRL_TWICE; and by KRL_OUT_OF_MEMORY at any point. */
krl_reply krl_server_open(krl_handle *handle, size_t room, size_t reach, uint64_t epoch, const krl_row *entries,
                          size_t entries_length, const krl_record *records, size_t records_length);

/* Gives the server the bytes of one message, whoever sent it. A change is one more note of the handle, also with
 * KRL_UNSAID: what this call or a later one sends can be taken once it is confirmed. Refused by KRL_BAD_MESSAGE,
 * KRL_ALARM, KRL_OUT_OF_MEMORY. */
krl_stepped krl_server_step(krl_handle *handle, const uint8_t *bytes, size_t length);

/* Sends again to a client that seems stuck what it may have missed. It changes nothing. A number of 64 or more is no
 * client: nothing is sent. Refused by KRL_OUT_OF_MEMORY. */
krl_reply krl_server_nudge(krl_handle *handle, uint64_t client);

/* The server's epoch and phase. */
krl_server_state krl_server_status(krl_handle *handle);

/* The clients that the server waits for while it recovers, in order of first registration. They go into `clients`,
 * and the detail is their count: at most 64. Refused by KRL_TOO_SHORT, KRL_OUT_OF_MEMORY. */
krl_reply krl_server_missing(krl_handle *handle, uint64_t *clients, size_t room);

/* What is kept of a client. Refused by KRL_BAD_CLIENT if it never registered. */
krl_recorded krl_server_record(krl_handle *handle, uint64_t client);

/* What an operator sees: who waits, for whom, and how much each client holds. These calls take no memory and change
 * nothing. Each is refused by KRL_BAD_CLIENT if the number is 64 or more. */

/* How a client waits for a lock. */
krl_waiting krl_server_waiter(krl_handle *handle, uint64_t client);

/* The clients that a client waits for, in ascending order: at the slot at which it waits, those that wait before it,
 * and those that hold there what does not go next to what it wants. They go into `clients`, and the detail is their
 * count: at most 64. None if it does not wait, or waits for nobody but itself to acknowledge a push. Refused by
 * KRL_TOO_SHORT. */
krl_reply krl_server_waited_for(krl_handle *handle, uint64_t client, uint64_t *clients, size_t room);

/* At how many slots a client holds a mode other than N: the detail. It takes time in proportion to the slots at which
 * anybody holds or waits. */
krl_reply krl_server_held(krl_handle *handle, uint64_t client);

/* What a client holds on the first slot, from the point `from` on, at which its mode is not N. A caller that
 * begins at 0 and continues at `hi` each time sees all that the client holds. It takes time in proportion to the
 * slots from `from` on, as far as that one, at which anybody holds or waits. */
krl_held_slot krl_server_next_held(krl_handle *handle, uint64_t client, uint64_t from);

/* Whether a client would get at once, to read it, each slot that has one of the points from `lo` on below `hi`: the
 * server serves, nobody waits there, and no other client holds there what excludes a reader. The detail is 1 if so,
 * otherwise 0. A host that shows rows to a client without a lock asks this first, and shows none of what others keep
 * for themselves. Refused by KRL_BAD_CLIENT, and by KRL_BAD_POINT if `hi` is above KRL_END. */
krl_reply krl_server_may_read(krl_handle *handle, uint64_t client, uint64_t lo, uint64_t hi);

/* The entries of the server's index with keys from `lo` on below `hi`, in key order, as many as there is room for. They
 * go into `rows`, and the detail is their count. **Nobody may see them before the host has confirmed the notes on which
 * they rest**, `after` of them, and a store that several servers may open has then to have taken a transaction that
 * began after the host was asked for them. The call takes no memory, changes nothing, and refuses no range: one that
 * ends where it begins, or before that, has no entries. */
krl_page krl_server_rows(krl_handle *handle, uint64_t lo, uint64_t hi, krl_row *rows, size_t room);

/* Either. */

/* A handle counts its notes, which the host has to keep on its disk. The first note is the opening: a client's
 * incarnation, or a server's epoch. Each change that a server's step reports is one more. A message rests on all notes
 * that were reported before it, the change of its own step included.
 *
 * Confirms that the first `count` notes are on the disk. The detail is how many were reported. A count that is not
 * greater than an earlier one changes nothing, so a host may ask with 0. Refused, in this order, by KRL_CLOSED,
 * KRL_NOT_TOLD. */
krl_reply krl_confirm(krl_handle *handle, uint64_t count);

/* Takes the messages that wait and rest on confirmed notes only, in their order: for each its length, in eight bytes,
 * the lowest first, and then the message. All of them go into `bytes`, and the detail is how many bytes that is; or
 * KRL_TOO_SHORT with that number, and none is taken. If nothing waits, the code is KRL_DONE and the detail 0. If
 * messages wait and none of them may be taken, the code is KRL_UNKEPT, and the detail is how many notes were reported.
 * So a call after KRL_DONE shows whether more messages wait. Refused, in this order, by KRL_CLOSED, KRL_UNKEPT. */
krl_reply krl_take(krl_handle *handle, uint8_t *bytes, size_t room);

/* Closes the handle and frees what it kept. What waits to be sent is dropped. A client sends nothing. For a closed
 * handle nothing happens. */
void krl_close(krl_handle *handle);

/* Leases.
 *
 * How long a client may answer from its cache, and from when on its server may evict it. A lease lets a server evict a
 * client that is dead or cut off, without anybody's word for it: an evicted incarnation answers nothing from then on,
 * whatever was lost or delayed, and however long anything stood still. `docs/LEASES.md` states what the two hosts
 * have to do for that, and what they need of their clocks.
 *
 * These calls need no handle, take no memory and read no clock. `now` is what the host's clock shows: a client's calls
 * are given the client's clock, and a server's calls the server's. Two clocks may differ by any amount.
 */

/* The lease of an incarnation that has no terms yet. It sends no Hello before it has taken terms, so it holds
 * nothing. */
krl_lease krl_lease_new(void);

/* Takes a server's terms: a lease of `length`, in answer to the sign that the client sent at `stamp`. The lease runs
 * from that moment, however long the terms were on their way. Nothing changes if the lease has ended at `now`, or if
 * `stamp` is not later than that of the terms taken before. Terms of an earlier connection must not be handed in. */
void krl_lease_take_terms(krl_lease *lease, uint64_t stamp, uint64_t length, uint64_t now);

/* What the scan has answered, if the lease holds. `now` has to be read after `krl_reader_scan_leased` has returned: the
 * library does not learn when it was read. A scan is answered once, and a lease that has ended answers nothing, no miss
 * either. Refused, in this order, by KRL_CLOSED if the scan was answered before, KRL_LEASE_ENDED. */
krl_reply krl_leased_scan_answer(krl_leased_scan *scan, const krl_lease *lease, uint64_t now);

/* Whether a client's host may hand over what else it has learned from the client, and may send for it. `now` has to be
 * read after that. */
bool krl_lease_holds(const krl_lease *lease, uint64_t now);

/* A table of leases.
 *
 * What a server's host has to decide about the leases of its clients: until when each may answer, whose Hello the
 * server may have, whom it evicts, what it stores first, and when it grants a lease. Whichever of these calls a host
 * makes, an incarnation that was evicted answers nothing any more.
 *
 * The host keeps the table, in 4,656 bytes of its own, and gives it to one call at a time. `client` is a client's
 * number, and `now` what the server's clock shows, read after what the call reports. The calls after
 * `krl_lease_table_open` are refused by KRL_CLOSED before the server has begun, and then by KRL_BAD_CLIENT.
 */

/* The table of a server that is about to start, by these terms. In its store the longest lease is `longest`, and
 * nothing is known of its clients: each may have a lease that does not end. */
krl_lease_table krl_lease_table_new(const krl_terms *terms, uint64_t longest);

/* Takes in what the store has of a client. Refused, in this order, by KRL_OPEN_ALREADY after the first commit has
 * begun, KRL_BAD_CLIENT. */
krl_reply krl_lease_table_store_has(krl_lease_table *table, uint64_t client, const krl_stored_lease *stored);

/* What the table knows of a client, and what the store has to have of leases. Refused by KRL_BAD_CLIENT. */
krl_lease_shown krl_lease_table_shows(const krl_lease_table *table, uint64_t client);

/* A commit begins: with it the store gets what `krl_lease_table_shows` answers now, if it has something else. The
 * detail is its number, from 1. Refused by KRL_SPENT. */
krl_reply krl_lease_table_commit(krl_lease_table *table);

/* The commit of this number has been made, and all before it: so the store was still this server's after it had begun.
 * Refused by KRL_NOT_TOLD if none of this number has begun. */
krl_reply krl_lease_table_committed(krl_lease_table *table, uint64_t commit);

/* The server begins. `now` is read after its first commit has been made. Refused, in this order, by KRL_OPEN_ALREADY,
 * and by KRL_CLOSED if no commit has been made. */
krl_reply krl_lease_table_open(krl_lease_table *table, uint64_t now);

/* Takes a client's sign. KRL_DONE: terms may leave after the commit that begins next. KRL_GONE: the incarnation answers
 * nothing any more, whatever it sends, and its host is to learn that. */
krl_reply krl_lease_table_sign(krl_lease_table *table, uint64_t client, const krl_sign *sign, uint64_t now);

/* The terms that may leave to a client, on the connection on which the sign came. They are there once. */
krl_grant krl_lease_table_take_terms(krl_lease_table *table, uint64_t client);

/* Whether a Hello of this incarnation may be given to the server now: KRL_DONE. If it is greater than the registered
 * one, that answers nothing from then on. KRL_STILL_ANSWERS: the host drops the Hello, and asks when it is sent again.
 */
krl_reply krl_lease_table_admit(krl_lease_table *table, uint64_t client, uint64_t incarnation, uint64_t now);

/* The server has registered an incarnation of a client. Also refused, in this order, by KRL_BAD_INCARNATION if it is
 * not greater than the registered one, and by KRL_STILL_ANSWERS if that may still answer: its Hello was not admitted.
 * What the store has to have is stored with the registration or before it. */
krl_reply krl_lease_table_register(krl_lease_table *table, uint64_t client, uint64_t incarnation, uint64_t now);

/* The client has left: the server has judged its Bye. */
krl_reply krl_lease_table_leave(krl_lease_table *table, uint64_t client);

/* Whether the client is to be evicted. The detail is the incarnation by whose Hello and Bye, or 0. If there is one, the
 * client answers nothing from then on, and each later call answers one too, until the client has left. */
krl_reply krl_lease_table_evict(krl_lease_table *table, uint64_t client, uint64_t now);

/* The server has registered that incarnation, which the host has made. Refused as `krl_lease_table_register`. */
krl_reply krl_lease_table_succeed(krl_lease_table *table, uint64_t client, uint64_t incarnation);

/* What the store has to have may become less: once no lease of an older server runs, the longest is what this one
 * grants. It may be stored later. */
krl_reply krl_lease_table_revise(krl_lease_table *table, uint64_t now);

/* Without a handle: read a message to the server or to a client and write its spelling, which is the same bytes
 * again. The detail is their count. Refused by KRL_BAD_MESSAGE, KRL_TOO_SHORT, KRL_OUT_OF_MEMORY. For tests of a
 * host. */
krl_reply krl_respell_to_server(const uint8_t *bytes, size_t length, uint8_t *spelling, size_t room);
krl_reply krl_respell_to_client(const uint8_t *bytes, size_t length, uint8_t *spelling, size_t room);

/* Shards.
 *
 * The points from 0 to KRL_END, cut into at most KRL_SHARDS shards, each served by a server of its own: shard 0 begins
 * at 0, and each other one at a bound. The bounds rise, from above 0 up to KRL_END. These calls take no handle and no
 * memory, and any number of threads make them at once.
 */

/* The shard that has a point: the detail. No other one has it. Refused, in this order, by KRL_BAD_SHARDS,
 * KRL_BAD_POINT. */
krl_reply krl_shard_of(const uint64_t *bounds, size_t bounds_length, uint64_t point);

/* What each shard has of the points from `lo` on below `hi`, in ascending order. Each part lies in its shard, no point
 * lies in two parts, and together they are exactly these points. The parts go into `parts`, and the detail is their
 * count: at most KRL_SHARDS. Refused, in this order, by KRL_BAD_SHARDS, KRL_BAD_SPAN, KRL_TOO_SHORT. */
krl_reply krl_parts(const uint64_t *bounds, size_t bounds_length, uint64_t lo, uint64_t hi, krl_part *parts,
                    size_t room);

#ifdef __cplusplus
}
#endif

#endif
