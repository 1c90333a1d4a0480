# Not run by itself: a library that refuses requests for memory to a built program, by some lines of C that stand before the C
# library's calls. `make_refuse DIR` builds DIR/refuse.so. A program that is run with it as LD_PRELOAD is refused the requests from
# the number FIRST to the number LAST, from 1.
# shellcheck shell=bash

make_refuse() {
    cat > "$1/refuse.c" <<'CODE'
#define _GNU_SOURCE
#include <dlfcn.h>
#include <errno.h>
#include <stdatomic.h>
#include <stdlib.h>

/* Whether this request is to be refused: the one of the number FIRST, or with LAST also those behind it. */
static int refused(void) {
    static atomic_long asked;
    const char *first = getenv("FIRST"), *last = getenv("LAST");
    long number = atomic_fetch_add(&asked, 1) + 1;
    return first && number >= atol(first) && number <= atol(last);
}

#define REFUSE(answer) do { if (refused()) { errno = ENOMEM; return answer; } } while (0)
#define NEXT(name) ((__typeof__(&name)) dlsym(RTLD_NEXT, #name))

void *malloc(size_t size) { REFUSE(NULL); return NEXT(malloc)(size); }
void *realloc(void *old, size_t size) { REFUSE(NULL); return NEXT(realloc)(old, size); }
void *aligned_alloc(size_t to, size_t size) { REFUSE(NULL); return NEXT(aligned_alloc)(to, size); }
int posix_memalign(void **out, size_t to, size_t size) { REFUSE(ENOMEM); return NEXT(posix_memalign)(out, to, size); }
CODE
    ${CC:-cc} -O1 -shared -fPIC -o "$1/refuse.so" "$1/refuse.c" -ldl
}
