// Refuses memory to the program that it is loaded into: the allocation whose number REFUSED has, and with LATER all after it. If THREADS
// is set, threads are refused in place of memory. Only what the program itself asks for counts, from 1. Of each refusal a byte is written
// to the descriptor TOLD.
#define _GNU_SOURCE
#include <dlfcn.h>
#include <errno.h>
#include <link.h>
#include <pthread.h>
#include <stdatomic.h>
#include <stdint.h>
#include <stdlib.h>
#include <unistd.h>

static void *(*given_malloc)(size_t);
static void *(*given_realloc)(void *, size_t);
static int (*given_create)(pthread_t *, const pthread_attr_t *, void *(*)(void *), void *);
static uintptr_t first_of_program, last_of_program;
static unsigned long refused;
static int later, threads, told;
static atomic_ulong asked;

static unsigned long number_of(const char *name) {
    const char *text = getenv(name);
    return text ? strtoul(text, NULL, 10) : 0;
}

// The program comes first of all that is loaded.
static int note_program(struct dl_phdr_info *info, size_t size, void *data) {
    (void)size, (void)data;
    for (int i = 0; i < info->dlpi_phnum; i++) {
        const ElfW(Phdr) *part = &info->dlpi_phdr[i];
        if (part->p_type == PT_LOAD && part->p_flags & PF_X) {
            first_of_program = info->dlpi_addr + part->p_vaddr;
            last_of_program = first_of_program + part->p_memsz;
        }
    }
    return 1;
}

__attribute__((constructor)) static void begin(void) {
    given_create = dlsym(RTLD_NEXT, "pthread_create");
    refused = number_of("REFUSED");
    later = number_of("LATER");
    threads = number_of("THREADS");
    told = number_of("TOLD");
    dl_iterate_phdr(note_program, NULL);
}

static int is_refused(const void *caller) {
    uintptr_t at = (uintptr_t)caller;
    if (at < first_of_program || at >= last_of_program) return 0;
    unsigned long number = atomic_fetch_add(&asked, 1) + 1;
    if (refused == 0 || number < refused || (number > refused && !later)) return 0;
    if (write(told, "x", 1) != 1) abort();
    return 1;
}

void *malloc(size_t size) {
    if (!given_malloc) given_malloc = dlsym(RTLD_NEXT, "malloc");
    if (!threads && is_refused(__builtin_return_address(0))) return errno = ENOMEM, NULL;
    return given_malloc(size);
}

void *realloc(void *old, size_t size) {
    if (!given_realloc) given_realloc = dlsym(RTLD_NEXT, "realloc");
    if (!threads && is_refused(__builtin_return_address(0))) return errno = ENOMEM, NULL;
    return given_realloc(old, size);
}

int pthread_create(pthread_t *thread, const pthread_attr_t *attributes, void *(*act)(void *), void *argument) {
    if (threads && is_refused(__builtin_return_address(0))) return EAGAIN;
    return given_create(thread, attributes, act, argument);
}
