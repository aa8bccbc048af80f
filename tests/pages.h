/* What the C tests share: painted pages between two that may not be touched, and numbers of standard input. */
#ifndef PAGES_H
#define PAGES_H

#include <signal.h>
#include <stdint.h>
#include <stdio.h>
#include <stdlib.h>
#include <string.h>
#include <sys/mman.h>
#include <sys/resource.h>
#include <sys/wait.h>
#include <unistd.h>

/* As large as a page can be on the machines that this runs on, emulated or not. */
#define PAGE 65536u
#define PAINT 0xa5

static inline void stop(const char *why) {
    fprintf(stderr, "%s\n", why);
    exit(1);
}

/* Does reading this byte stop a program? */
static inline int guarded(const uint8_t *byte) {
    const struct rlimit no_core = {0, 0};
    int status;
    pid_t child = fork();

    if (child < 0)
        stop("cannot fork");
    if (child == 0) {
        setrlimit(RLIMIT_CORE, &no_core);
        close(STDERR_FILENO);
        _exit(*(const volatile uint8_t *)byte);
    }
    if (waitpid(child, &status, 0) != child)
        stop("cannot wait");
    return WIFSIGNALED(status) && WTERMSIG(status) == SIGSEGV;
}

/* So many painted pages that may be read and written, between two that may not. */
static inline uint8_t *make_pages(size_t count) {
    uint8_t *all = mmap(NULL, (count + 3) * PAGE, PROT_NONE, MAP_PRIVATE | MAP_ANONYMOUS, -1, 0);
    uint8_t *pages = all + (PAGE - (uintptr_t)all % PAGE) % PAGE + PAGE;

    if (all == MAP_FAILED)
        stop("no memory for the guard pages");
    if (mprotect(pages, count * PAGE, PROT_READ | PROT_WRITE))
        stop("the pages cannot be made readable");
    if (!guarded(pages - 1) || !guarded(pages + count * PAGE))
        stop("the guard pages can be read");
    memset(pages, PAINT, count * PAGE);
    return pages;
}

static inline int painted(const uint8_t *from, size_t length) {
    size_t at = 0;

    while (at < length && from[at] == PAINT)
        at++;
    return at == length;
}

/* A number of so many bytes; 0 at the end of the input. */
static inline int read_number(unsigned size, uint64_t *number) {
    uint8_t bytes[8];

    *number = 0;
    if (fread(bytes, 1, size, stdin) != size)
        return 0;
    while (size > 0)
        *number = *number * 256 + bytes[--size];
    return 1;
}

#endif
