/* What the programs of this folder need to call AmigaOS. They are compiled without its headers, for the 68020, as one hunk of code
 * that runs at any address. So they have no tables of pointers. */
#ifndef AMIGA_H
#define AMIGA_H

typedef unsigned char u8;
typedef unsigned short u16;
typedef unsigned long u32;
typedef long s32;

enum { YES = -1, NO = 0 }; /* DOSTRUE and DOSFALSE */

/* Functions of exec.library. */
enum exec_function {
    FORBID = -132,
    PERMIT = -138,
    ALLOC_MEM = -198,
    FREE_MEM = -210,
    FIND_TASK = -294,
    PUT_MSG = -366,
    GET_MSG = -372,
    WAIT_PORT = -384,
    OPEN_LIBRARY = -552,
    CREATE_MSG_PORT = -666,
    DELETE_MSG_PORT = -672
};

enum { CLEARED_PUBLIC_MEMORY = 0x10001 };

/* The registers d0 to d7 and a0 to a5. */
struct registers {
    u32 d[8], a[6];
};

/* Calls the function at an offset of a library with these registers, and returns d0. Its d1 is left in the registers. */
extern u32 jump(u32 library, s32 offset, struct registers *registers);

/* Where the program begins. Its result is the return code of the command. */
s32 program(void);

__asm__(".section .text.start\n"
        ".globl _start\n"
        "_start:\n"
        " bra.w program\n"
        ".globl jump\n"
        "jump:\n"
        " movem.l %d2-%d7/%a2-%a6,-(%sp)\n"
        " move.l 48(%sp),%a6\n"
        " move.l 52(%sp),%d0\n"
        " move.l 56(%sp),%a2\n"
        " move.l %a2,-(%sp)\n"
        " lea (%a6,%d0.l),%a3\n"
        " pea 1f(%pc)\n"
        " move.l %a3,-(%sp)\n" /* the function returns to 1 */
        " movem.l (%a2),%d0-%d7/%a0-%a5\n"
        " rts\n"
        "1: move.l (%sp)+,%a2\n"
        " move.l %d1,4(%a2)\n"
        " movem.l (%sp)+,%d2-%d7/%a2-%a6\n"
        " rts\n"
        ".text\n");

/* The compiler may call this function to clear a struct. */
void *memset(void *to, int byte, u32 length);

void *memset(void *to, int byte, u32 length) {
    u8 *at = to;
    while (length-- != 0) *at++ = (u8)byte;
    return to;
}

static inline u32 get_long(u32 at) { return *(volatile u32 *)at; }

static inline void set_long(u32 at, u32 value) { *(volatile u32 *)at = value; }

static inline u8 *bytes_at(u32 bptr) { return (u8 *)(bptr << 2); }

/* A function of exec.library, whose base is at address 4. */
static inline u32 exec(s32 function, u32 d0, u32 d1, u32 a0, u32 a1) {
    struct registers r = {{d0, d1, 0, 0, 0, 0, 0, 0}, {a0, a1, 0, 0, 0, 0}};
    return jump(get_long(4), function, &r);
}

/* A function of dos.library with the arguments d1 to d7. */
static inline u32 dos_call(u32 dos, s32 function, const u32 *d) {
    struct registers r = {{0, d[0], d[1], d[2], d[3], d[4], d[5], d[6]}, {0, 0, 0, 0, 0, 0}};
    return jump(dos, function, &r);
}

static inline u32 open_library(const char *name) { return exec(OPEN_LIBRARY, 0, 0, 0, (u32)name); }

/* Memory that is cleared and aligned to longwords, or 0. */
static inline u32 allocate(u32 bytes) { return exec(ALLOC_MEM, bytes, CLEARED_PUBLIC_MEMORY, 0, 0); }

static inline void give_back(u32 at, u32 bytes) { exec(FREE_MEM, bytes, 0, 0, at); }

#endif
