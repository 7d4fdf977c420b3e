/* A plain measure of the same bytes: reads standard input, splits it into words at the bytes that separate tokens, and interns
 * them in a table; prints how many there are, how many differ, and the microseconds without reading. */
#include <stdio.h>
#include <stdlib.h>
#include <string.h>
#include <time.h>

static int is_word(unsigned char b)
{
    return (b >= 'a' && b <= 'z') || (b >= 'A' && b <= 'Z') || (b >= '0' && b <= '9') || b == '_' || b == '-' || b == '.' || b == '/';
}

struct entry { const char *text; size_t length; };

int main(void)
{
    size_t size = 0, room = 1 << 20, words = 0, differ = 0, places = 1 << 16;
    char *bytes = malloc(room);
    struct entry *table = calloc(places, sizeof *table);
    for (size_t n; (n = fread(bytes + size, 1, room - size, stdin)) > 0;)
        if ((size += n) == room)
            bytes = realloc(bytes, room *= 2);
    struct timespec start, end;
    clock_gettime(CLOCK_MONOTONIC, &start);
    for (size_t at = 0; at < size;) {
        size_t begin = at;
        unsigned long hash = 5381;
        while (at < size && is_word((unsigned char)bytes[at]))
            hash = hash * 33 + (unsigned char)bytes[at++];
        if (at == begin) {
            at++;
            continue;
        }
        words++;
        if (2 * differ >= places) {
            struct entry *wider = calloc(places * 2, sizeof *wider);
            for (size_t i = 0; i < places; i++)
                if (table[i].text) {
                    unsigned long h = 5381;
                    for (size_t k = 0; k < table[i].length; k++)
                        h = h * 33 + (unsigned char)table[i].text[k];
                    size_t p = h & (2 * places - 1);
                    while (wider[p].text)
                        p = (p + 1) & (2 * places - 1);
                    wider[p] = table[i];
                }
            free(table);
            table = wider;
            places *= 2;
        }
        size_t p = hash & (places - 1);
        while (table[p].text && (table[p].length != at - begin || memcmp(table[p].text, bytes + begin, at - begin)))
            p = (p + 1) & (places - 1);
        if (!table[p].text) {
            table[p] = (struct entry){bytes + begin, at - begin};
            differ++;
        }
    }
    clock_gettime(CLOCK_MONOTONIC, &end);
    printf("words %zu differ %zu %ld\n", words, differ, (end.tv_sec - start.tv_sec) * 1000000 + (end.tv_nsec - start.tv_nsec) / 1000);
    return 0;
}
