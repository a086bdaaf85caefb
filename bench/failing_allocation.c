/* A library to put before a program's own calls (LD_PRELOAD): the allocation of the number in FAIL_ALLOCATION, counted
 * from 1 among those that the program itself asks for, is refused, and the file that REFUSED names is made then. */
#define _GNU_SOURCE
#include <dlfcn.h>
#include <errno.h>
#include <fcntl.h>
#include <link.h>
#include <stdatomic.h>
#include <stdint.h>
#include <stdlib.h>
#include <unistd.h>

static atomic_ulong asked;
static unsigned long refused;
static uintptr_t code_start, code_end;

static int note_program(struct dl_phdr_info *info, size_t size, void *unused)
{
    (void)size, (void)unused;
    for (int i = 0; i < info->dlpi_phnum; i++) {
        const ElfW(Phdr) *part = &info->dlpi_phdr[i];
        if (part->p_type == PT_LOAD && (part->p_flags & PF_X)) {
            code_start = info->dlpi_addr + part->p_vaddr;
            code_end = code_start + part->p_memsz;
        }
    }
    return 1; /* the program itself comes first */
}

__attribute__((constructor)) static void begin(void)
{
    const char *number = getenv("FAIL_ALLOCATION");
    refused = number ? strtoul(number, NULL, 10) : 0;
    dl_iterate_phdr(note_program, NULL);
}

static int is_refused(void *caller)
{
    uintptr_t at = (uintptr_t)caller;
    if (at < code_start || at >= code_end)
        return 0;
    if (atomic_fetch_add(&asked, 1) + 1 != refused)
        return 0;
    const char *name = getenv("REFUSED");
    if (name)
        close(open(name, O_CREAT | O_WRONLY, 0600));
    return 1;
}

#define REAL(name) ((__typeof__(&name))dlsym(RTLD_NEXT, #name))
#define CALLER __builtin_return_address(0)

void *malloc(size_t size)
{
    static void *(*real)(size_t);
    if (!real)
        real = REAL(malloc);
    return is_refused(CALLER) ? (errno = ENOMEM, NULL) : real(size);
}

void *realloc(void *old, size_t size)
{
    static void *(*real)(void *, size_t);
    if (!real)
        real = REAL(realloc);
    return is_refused(CALLER) ? (errno = ENOMEM, NULL) : real(old, size);
}
