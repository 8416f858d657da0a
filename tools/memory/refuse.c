/* Refuses the Nth request for memory of a program, or that and all later ones (REFUSE_AT=N, REFUSE_ON=1),
   or each of more than N bytes (REFUSE_OVER=N), and writes to the file REFUSE_COUNT how many there were,
   the bytes of the greatest, and how many bytes the program had at most at one time. Loaded with
   LD_PRELOAD. */
#define _GNU_SOURCE
#include <dlfcn.h>
#include <malloc.h>
#include <stdio.h>
#include <stdlib.h>

static void *(*plain_malloc)(size_t);
static void *(*plain_realloc)(void *, size_t);
static void (*plain_free)(void *);
static long requests, refused_at = -1;
static size_t greatest, allowed = (size_t)-1, held, most_held;
static int refuses_on;

static void begin(void) {
    if (plain_malloc) return;
    plain_malloc = dlsym(RTLD_NEXT, "malloc");
    plain_realloc = dlsym(RTLD_NEXT, "realloc");
    plain_free = dlsym(RTLD_NEXT, "free");
    const char *at = getenv("REFUSE_AT");
    if (at) refused_at = atol(at);
    refuses_on = getenv("REFUSE_ON") != NULL;
    const char *over = getenv("REFUSE_OVER");
    if (over) allowed = strtoul(over, NULL, 10);
}

static int is_refused(size_t size) {
    requests++;
    if (size > greatest) greatest = size;
    return size > allowed || requests == refused_at || (refuses_on && refused_at > 0 && requests > refused_at);
}

static void *taken(void *block) {
    if (block) held += malloc_usable_size(block);
    if (held > most_held) most_held = held;
    return block;
}

void *malloc(size_t size) {
    begin();
    return is_refused(size) ? NULL : taken(plain_malloc(size));
}

void *realloc(void *old, size_t size) {
    begin();
    if (is_refused(size)) return NULL;
    size_t before = old ? malloc_usable_size(old) : 0;
    void *block = plain_realloc(old, size);
    if (block) held -= before;
    return taken(block);
}

void free(void *block) {
    begin();
    if (block) held -= malloc_usable_size(block);
    plain_free(block);
}

__attribute__((destructor)) static void tell(void) {
    const char *path = getenv("REFUSE_COUNT");
    long count = requests;
    size_t bytes = greatest, most = most_held;
    refused_at = -1;
    allowed = (size_t)-1;
    FILE *file = path ? fopen(path, "w") : NULL;
    if (!file) return;
    fprintf(file, "%ld\n%zu\n%zu\n", count, bytes, most);
    fclose(file);
}
