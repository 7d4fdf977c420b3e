/* Refuses one allocation of a program: the one whose number the environment's REFUSE gives, counted from 1 over malloc,
 * calloc and realloc. Where it refuses, it makes the file that MARK names, so that a sweep knows when it is through. It is
 * preloaded for that program alone. */
typedef unsigned long size_t;

extern char *getenv(const char *name);
extern int open(const char *path, int how, ...);
extern int close(int file);
extern void *__libc_malloc(size_t size);
extern void *__libc_calloc(size_t count, size_t size);
extern void *__libc_realloc(void *place, size_t size);

enum { WRITE_CREATE = 0101 };

static int is_refused(void)
{
    static unsigned long asked, refused;
    static int is_read;
    if (!is_read) {
        const char *digits = getenv("REFUSE");
        is_read = 1;
        for (; digits && *digits >= '0' && *digits <= '9'; digits++)
            refused = refused * 10 + (unsigned long)(*digits - '0');
    }
    if (++asked != refused)
        return 0;
    (void)close(open(getenv("MARK"), WRITE_CREATE, 0600));
    return 1;
}

void *malloc(size_t size) { return is_refused() ? (void *)0 : __libc_malloc(size); }
void *calloc(size_t count, size_t size) { return is_refused() ? (void *)0 : __libc_calloc(count, size); }
void *realloc(void *place, size_t size) { return is_refused() ? (void *)0 : __libc_realloc(place, size); }
