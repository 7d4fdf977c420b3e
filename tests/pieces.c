/* Cuts a program's reads and writes into pieces, and fails some. The environment has the settings:
 *
 *   PIECE       the most bytes that a read or a write takes
 *   FAIL_READ   the number of the read that fails, counted from 1
 *   FAIL_WRITE  the number of the write that fails
 *   ERROR       the number of the error that it fails with; a write with 0 takes nothing
 *   STAYS       if set, each later read of the same file fails too
 *
 * At the first failure it writes to the file that MARK names the file descriptor, how many bytes of the file were read
 * before, and the file's path. It is preloaded for that program alone. */
typedef unsigned long size_t;

extern char *getenv(const char *name);
extern int *__errno_location(void);
extern long __read(int file, void *bytes, size_t count);
extern long __write(int file, const void *bytes, size_t count);
extern int open(const char *path, int how, ...);
extern int close(int file);
extern long lseek(int file, long offset, int whence);
extern long readlink(const char *path, char *bytes, size_t count);

enum { WRITE_CREATE = 0101 };

static size_t piece, fail_read, fail_write, error;
static int stays, is_read, is_failing;
static char failing[4096];

static size_t number_of(const char *digits)
{
    size_t number = 0;
    for (; digits && *digits >= '0' && *digits <= '9'; digits++)
        number = number * 10 + (size_t)(*digits - '0');
    return number;
}

static void read_environment(void)
{
    if (is_read)
        return;
    is_read = 1;
    piece = number_of(getenv("PIECE"));
    fail_read = number_of(getenv("FAIL_READ"));
    fail_write = number_of(getenv("FAIL_WRITE"));
    error = number_of(getenv("ERROR"));
    stays = getenv("STAYS") != (void *)0;
}

/* The path of a file whose number is below 100, with a zero after it. */
static void find_path(int file, char *path, size_t room)
{
    char link[] = "/proc/self/fd/00";
    long length;
    if (file < 10) {
        link[14] = (char)('0' + file);
        link[15] = 0;
    } else {
        link[14] = (char)('0' + file / 10);
        link[15] = (char)('0' + file % 10);
    }
    length = readlink(link, path, room - 1);
    path[length < 0 ? 0 : length] = 0;
}

static int is_same(const char *a, const char *b)
{
    while (*a && *a == *b)
        a++, b++;
    return *a == *b;
}

static void tell_number(int mark, size_t number)
{
    char digits[24];
    int first = 23;
    digits[first] = ' ';
    do
        digits[--first] = (char)('0' + number % 10);
    while (number /= 10);
    (void)__write(mark, digits + first, (size_t)(24 - first));
}

static void write_mark(int file)
{
    long offset = lseek(file, 0, 1);
    int mark = open(getenv("MARK"), WRITE_CREATE, 0600);
    size_t length = 0;
    find_path(file, failing, sizeof failing);
    while (failing[length])
        length++;
    tell_number(mark, (size_t)file);
    tell_number(mark, offset < 0 ? 0 : (size_t)offset);
    (void)__write(mark, failing, length);
    (void)close(mark);
}

static long fail(void)
{
    *__errno_location() = (int)error;
    return -1;
}

long read(int file, void *bytes, size_t count)
{
    static size_t reads;
    read_environment();
    if (is_failing && stays) {
        char path[4096];
        find_path(file, path, sizeof path);
        if (is_same(path, failing))
            return fail();
    }
    if (++reads == fail_read) {
        is_failing = 1;
        write_mark(file);
        return fail();
    }
    return __read(file, bytes, piece && piece < count ? piece : count);
}

long write(int file, const void *bytes, size_t count)
{
    static size_t writes;
    read_environment();
    if (++writes == fail_write) {
        write_mark(file);
        return error ? fail() : 0;
    }
    return __write(file, bytes, piece && piece < count ? piece : count);
}
