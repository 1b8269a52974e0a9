#define _GNU_SOURCE
#include "harness.h"

#include <dlfcn.h>
#include <link.h>
#include <string.h>
#include <sys/mman.h>
#include <unistd.h>

/* In patterns: a byte that depends on registers, one that says `and` and a register, and the end. */
enum { ANY = -1, AND = -2, END = -3 };
enum { NOP = 0x90, MOST_BYTES = 16, MOST_TIMES = 4 };

/* Changes to a function's machine code. The instructions have to occur as often as said (more than once where the compiler inlines them),
 * or nothing is planted. From `at` on, `bytes` bytes are replaced by `by`. */
static const struct bug {
    const char *name, *what;
    void *function;
    short pattern[MOST_BYTES];
    unsigned times, at, bytes, by;
} BUGS[] = {
    /* test $1, REG; je */
    {"receive-status", "takes a segment without DD", ixgbe_recv_pkts, {0xf6, ANY, 1, 0x0f, 0x84, END}, 1, 3, 6, NOP},
    /* movq $0, 8(REG) */
    {"refill-status", "does not clear the descriptor that it refills", ixgbe_recv_pkts, {0x48, 0xc7, ANY, 8, 0, 0, 0, 0, END}, 1, 0, 8, NOP},
    /* lea -1(REG), REG; test REG, REG; jne */
    {"tail", "stores RDT one place too far", ixgbe_recv_pkts, {0x8d, ANY, 0xff, 0x66, ANY, 0x85, ANY, 0x75, END}, 1, 2, 1, 0},
    /* and $1, REG; je */
    {"report", "cleans without DD", ixgbe_xmit_pkts, {0x83, AND, 1, 0x0f, 0x84, END}, 3, 3, 6, NOP},
    /* or $0x1000000, REG */
    {"end-of-frame", "posts frames without EOP", ixgbe_xmit_pkts, {0x81, ANY, 0, 0, 0, 1, END}, 1, 0, 6, NOP},
};

static bool matches(const uint8_t *code, const short *pattern)
{
    for (; *pattern != END; pattern++, code++)
        if (*pattern == AND ? (*code & 0xf8) != 0xe0 : *pattern != ANY && *pattern != *code)
            return false;
    return true;
}

static const struct bug *find_bug(const char *name)
{
    for (size_t k = 0; k < sizeof BUGS / sizeof *BUGS; k++)
        if (strcmp(BUGS[k].name, name) == 0)
            return &BUGS[k];
    fail("there is no bug '%s'", name);
}

static void replace(uint8_t *code, unsigned bytes, unsigned by)
{
    uintptr_t page = (uintptr_t)code & ~((uintptr_t)sysconf(_SC_PAGESIZE) - 1);
    size_t length = (uintptr_t)code + bytes - page;
    if (mprotect((void *)page, length, PROT_READ | PROT_WRITE | PROT_EXEC) != 0)
        fail("the driver's code cannot be changed");
    memset(code, (int)by, bytes);
    if (mprotect((void *)page, length, PROT_READ | PROT_EXEC) != 0)
        fail("the driver's code cannot be protected again");
}

void plant(const char *name)
{
    const struct bug *bug = find_bug(name);
    const ElfW(Sym) *symbol = 0; /* has the size of the function */
    uint8_t *code = bug->function, *found[MOST_TIMES];
    unsigned count = 0;
    Dl_info info;
    if (!dladdr1(code, &info, (void **)&symbol, RTLD_DL_SYMENT) || !symbol)
        fail("the bug '%s' is not planted: its function is not in the symbol table", name);
    for (size_t at = 0; at + MOST_BYTES <= symbol->st_size; at++)
        if (matches(code + at, bug->pattern) && count++ < MOST_TIMES)
            found[count - 1] = code + at;
    if (count != bug->times)
        fail("the bug '%s' is not planted: its instructions occur %u times in this build of the driver, not %u", name, count, bug->times);
    while (count > 0)
        replace(found[--count] + bug->at, bug->bytes, bug->by);
    fprintf(stderr, "planted: the driver %s\n", bug->what);
}
