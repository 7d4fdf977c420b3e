/* Writes down the calls by which a program makes and replaces files, in their order, to the file that MARK names: a line for each
 * file opened to be written, each write to such a file, each change of owner or mode, each fsync, rename and removal, with the
 * paths. A call that failed isn't written down. Of the calls that want to make a file that isn't there yet, the first TAKEN fail as if
 * one of that name were there. It is preloaded for that program alone. */
typedef unsigned long size_t;

extern char *getenv(const char *name);
extern int *__errno_location(void);
extern long syscall(long number, ...);

enum { READ_LINK = 89, WRITE = 1, OPEN = 2, CLOSE = 3, FSYNC = 74, FDATASYNC = 75, RENAME = 82, UNLINK = 87, FCHMOD = 91, FCHOWN = 93, OPEN_AT = 257 };
enum { HERE = -100, WRITING = 03, CREATE = 0100, EXCLUSIVE = 0200, APPEND = 02000, EXISTS = 17 };

static int mark = -1;

/* Whether one more name counts as taken. */
static int is_taken(void)
{
    static int taken = -1;
    if (taken < 0) {
        const char *digits = getenv("TAKEN");
        for (taken = 0; digits && *digits >= '0' && *digits <= '9'; digits++)
            taken = taken * 10 + (*digits - '0');
    }
    return taken > 0 && taken-- > 0;
}

static void append(const char *text)
{
    size_t length = 0;
    while (text[length])
        length++;
    (void)syscall(WRITE, mark, text, length);
}

/* A line with a word and up to two texts. */
static void note(const char *word, const char *first, const char *second)
{
    if (mark < 0) {
        const char *path = getenv("MARK");
        if (!path)
            return;
        mark = (int)syscall(OPEN, path, WRITING - 2 | CREATE | APPEND, 0600);
    }
    append(word);
    append(" ");
    append(first);
    if (second) {
        append(" ");
        append(second);
    }
    append("\n");
}

/* The path of an open file, with a zero after it. */
static const char *path_of(int file)
{
    static char path[4096];
    char link[32] = "/proc/self/fd/", digits[12];
    int length = 0, at = 14;
    long found;
    do
        digits[length++] = (char)('0' + file % 10);
    while ((file /= 10) > 0);
    while (length > 0)
        link[at++] = digits[--length];
    found = syscall(READ_LINK, link, path, sizeof path - 1);
    path[found < 0 ? 0 : found] = 0;
    return path;
}

static int result_of(long result, const char *word, int file)
{
    if (result >= 0)
        note(word, path_of(file), (char *)0);
    return (int)result;
}

static int opened(const char *path, int how, unsigned mode)
{
    int file;
    if ((how & EXCLUSIVE) && is_taken()) {
        *__errno_location() = EXISTS;
        return -1;
    }
    file = (int)syscall(OPEN_AT, HERE, path, how, mode);
    if (file >= 0 && (how & WRITING))
        note("open", path_of(file), (char *)0);
    return file;
}

static unsigned mode_of(int how, __builtin_va_list *rest)
{
    return how & CREATE ? __builtin_va_arg(*rest, unsigned) : 0;
}

#define OPENS(NAME, PARAMETERS)                          \
    int NAME PARAMETERS                                  \
    {                                                    \
        __builtin_va_list rest;                          \
        unsigned mode;                                   \
        __builtin_va_start(rest, how);                   \
        mode = mode_of(how, &rest);                      \
        __builtin_va_end(rest);                          \
        return opened(path, how, mode);                  \
    }

OPENS(open, (const char *path, int how, ...))
OPENS(open64, (const char *path, int how, ...))
OPENS(openat, (int folder, const char *path, int how, ...))
OPENS(openat64, (int folder, const char *path, int how, ...))

long write(int file, const void *bytes, size_t count)
{
    long written = syscall(WRITE, file, bytes, count);
    if (written >= 0 && file > 2)
        note("write", path_of(file), (char *)0);
    return written;
}

int fsync(int file) { return result_of(syscall(FSYNC, file), "fsync", file); }
int fdatasync(int file) { return result_of(syscall(FDATASYNC, file), "fdatasync", file); }
int fchmod(int file, unsigned mode) { return result_of(syscall(FCHMOD, file, mode), "fchmod", file); }
int fchown(int file, unsigned owner, unsigned group) { return result_of(syscall(FCHOWN, file, owner, group), "fchown", file); }

int rename(const char *from, const char *to)
{
    long result = syscall(RENAME, from, to);
    if (result >= 0)
        note("rename", from, to);
    return (int)result;
}

int unlink(const char *path)
{
    long result = syscall(UNLINK, path);
    if (result >= 0)
        note("unlink", path, (char *)0);
    return (int)result;
}
