/*-------------------------------------------------------------------------
 *
 * definitions.h
 *	  Changes of the definition of cached tables.
 *
 *-------------------------------------------------------------------------
 */
#ifndef KRL_DEFINITIONS_H
#define KRL_DEFINITIONS_H

extern void krl_definitions_init(void);

#endif							/* KRL_DEFINITIONS_H */
