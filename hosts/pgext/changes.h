/*-------------------------------------------------------------------------
 *
 * changes.h
 *	  What a transaction changes.
 *
 *-------------------------------------------------------------------------
 */
#ifndef KRL_CHANGES_H
#define KRL_CHANGES_H

extern void krl_changes_init(void);
extern void krl_note_mark(uint64 mark);
extern void krl_take_all_back(void);
extern bool krl_has_changed(void);

#endif							/* KRL_CHANGES_H */
