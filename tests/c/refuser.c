/* Stands before malloc and realloc, the calls by which a test program allocates, and refuses one of them: scripts/refuse-memory. */

extern void *__libc_malloc(unsigned long size);
extern void *__libc_realloc(void *old, unsigned long size);
extern char *getenv(const char *name);
extern long atol(const char *text);
extern long write(int file, const void *from, unsigned long size);

static const char says_so[] = "an allocation was refused\n";

/* How many allocations it is to the one that is refused; 0 after it. */
static long left = -1;

static int is_refused(void) {
    if (left < 0) {
        left = atol(getenv("REFUSED_ALLOCATION"));
    }
    if (left == 0 || --left > 0) {
        return 0;
    }
    write(2, says_so, sizeof says_so - 1);
    return 1;
}

void *malloc(unsigned long size) {
    return is_refused() ? 0 : __libc_malloc(size);
}

void *realloc(void *old, unsigned long size) {
    return is_refused() ? 0 : __libc_realloc(old, size);
}
