/* The functions in C that the program calls and that neither Rattle nor glibc has for aarch64.

   For x86-64 they are in the kit's libos_c.a and liblibc_c.a. The kit has none for aarch64, so these
   take their place, and do the same: `tests/run static` compares both on x86-64. Their contracts,
   which proofs assume, are in the kit's os/src/c.rt and libc/src/heap.rt. No proof covers this file. */
#define _GNU_SOURCE /* for O_DIRECTORY and O_NOFOLLOW */
#include <errno.h>
#include <fcntl.h>
#include <stdbool.h>
#include <stddef.h>
#include <stdlib.h>
#include <string.h>

#ifndef __GLIBC__
#error "only glibc passes arguments to what runs before main"
#endif

static int count;
static char **words;

__attribute__((constructor)) static void keep(int argc, char **argv)
{
    count = argc;
    words = argv;
}

size_t rattle_arg_count(void)
{
    return (size_t)count;
}

/* Puts argument i at the start of a buffer. Answers its length, -1 where there is no such argument,
   or -2 where it does not fit, and then the buffer is full. */
ptrdiff_t rattle_arg(size_t i, unsigned char *buffer, size_t size)
{
    if (i >= (size_t)count || words[i] == NULL)
        return -1;
    size_t length = strlen(words[i]);
    if (length > size) {
        memcpy(buffer, words[i], size);
        return -2;
    }
    memcpy(buffer, words[i], length);
    return (ptrdiff_t)length;
}

int rattle_errno(void)
{
    return errno;
}

void rattle_set_errno(int error)
{
    errno = error;
}

/* Opens the directory that a name reaches from another. Answers a descriptor, or -1, also where the
   name ends in a link or reaches no directory. */
int rattle_open_dir_at(int directory, const char *name)
{
    return openat(directory, name, O_RDONLY | O_DIRECTORY | O_NOFOLLOW | O_CLOEXEC);
}

/* Whether there is memory, and where. If there is none, the pointer is to a byte of this file. */
struct tried {
    bool ok;
    void *place;
};

static char no_memory;

static struct tried tried(void *place)
{
    return (struct tried){place != NULL, place != NULL ? place : &no_memory};
}

/* malloc aligns by 16, which every alignment that is asked for divides. A block of no bytes gets
   some, so that only a refusal gives no place. */
struct tried rattle_alloc(size_t size, size_t alignment)
{
    return tried(malloc(size > 0 ? size : alignment));
}

struct tried rattle_realloc(void *place, size_t kept, size_t size, size_t alignment)
{
    (void)kept; /* realloc keeps as many bytes as there are */
    return tried(realloc(place, size > 0 ? size : alignment));
}

void rattle_dealloc(void *place)
{
    free(place);
}
