/* The library krl_simulator, as lift.py wrote it, as a module of WebAssembly. docs/playground/engine.js calls it.
 *
 * Each run begins with empty memory. A block is taken after the one before, and none is given back before `clear`. */
#include "cpu.h"

#define EXPORT(name) __attribute__((export_name(#name))) name
/* The numbers of the registers of a call, and of its result. */
enum { RAX = 0, RCX = 1, RDX = 2, RSP = 4, RSI = 6, RDI = 7, R8 = 8, R9 = 9 };
enum { PAGE = 65536, MOST = 0x7fff0000 };

extern u8 __heap_base[];
extern void (*const e_krl_simulator_run)(S *);

static u32 next;
static _Alignas(16) u8 stack[1 << 20];

/* Memory of this size, or 0 if there is none. */
static u32 take(u64 size) {
    u32 at = (next + 15) & ~15u;
    if (size > MOST - at) return 0;
    u32 end = at + (u32)size, has = __builtin_wasm_memory_size(0) * PAGE;
    if (end > has && __builtin_wasm_memory_grow(0, (end - has) / PAGE + 64) == (size_t)-1) return 0;
    next = end;
    return at;
}

/* Forgets what the last run was given. Before all else. */
void EXPORT(clear)(void) {
    static u8 is_begun;
    if (!is_begun) lift_begin();
    is_begun = 1;
    next = (u32)(uintptr_t)__heap_base;
}

u32 EXPORT(room)(u32 size) { return take(size); }

/* As krl_simulator_run of krl_simulator.h, of a text that could be read; the result is written to `ending`. */
void EXPORT(run)(u32 ending, u32 words, u32 words_length, u32 text, u32 text_length, u32 output, u32 output_length,
                 u32 reports, u32 reports_length) {
    S s = { 0 };
    u64 top = (u64)(uintptr_t)(stack + sizeof stack - 64);
    /* The result has 24 bytes, so its place is the first argument. Those after the sixth lie on the stack. */
    s.r[RDI] = ending;
    s.r[RSI] = words;
    s.r[RDX] = words_length;
    s.r[RCX] = text;
    s.r[R8] = text_length;
    s.r[R9] = 0;
    st8(top, output);
    st8(top + 8, output_length);
    st8(top + 16, reports);
    st8(top + 24, reports_length);
    s.r[RSP] = top - 8;
    e_krl_simulator_run(&s);
}

/* What the library calls. Each takes the address that it returns to from the stack. */

static void leave(S *s) { s->r[RSP] += 8; }

/* Whether there is memory, and where. */
static void answer(S *s, u32 at) {
    s->r[RAX] = at != 0;
    s->r[RDX] = at ? at : 1;
    leave(s);
}

/* Size and alignment. */
void x_rattle_alloc(S *s) { answer(s, take(s->r[RDI] ? s->r[RDI] : s->r[RSI])); }

/* A block, how much of it is kept, the new size and the alignment. */
void x_rattle_realloc(S *s) {
    u32 at = take(s->r[RDX] ? s->r[RDX] : s->r[RCX]);
    u64 kept = s->r[RSI] < s->r[RDX] ? s->r[RSI] : s->r[RDX];
    if (at) __builtin_memcpy(AT(at), AT(s->r[RDI]), kept);
    answer(s, at);
}

void x_rattle_dealloc(S *s) { leave(s); }

void x_memcpy(S *s) {
    __builtin_memmove(AT(s->r[RDI]), AT(s->r[RSI]), s->r[RDX]);
    s->r[RAX] = s->r[RDI];
    leave(s);
}

void x_memmove(S *s) { x_memcpy(s); }

void x_memset(S *s) {
    __builtin_memset(AT(s->r[RDI]), (int)s->r[RSI], s->r[RDX]);
    s->r[RAX] = s->r[RDI];
    leave(s);
}

/* The text of an error of the system, of which there is none. */
void x___xpg_strerror_r(S *s) {
    (void)s;
    trap();
}
