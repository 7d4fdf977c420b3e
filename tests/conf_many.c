/* Reads a tree of Linux once, as its own `conf` does, and configures it many times: `conf_many KCONFIG FROM TO FROM TO ..`.
 *
 * Reading takes longest, since macros run commands; so there is a child process for each pair of paths, which begins with the
 * tree as it was read. It reads the configuration FROM as `conf --defconfig` does, and makes
 *
 *   TO.full    the full file
 *   TO.min     the minimal file, as `conf --savedefconfig` makes it of that full file
 *   TO.values  for each definition of a symbol a line `TYPE IMPLIED NAME=VALUE`: TYPE is conf's word for the type, VALUE isn't
 *              spelled as in a file, and IMPLIED is 1 where the symbol is implied although its direct dependency is n
 *
 * It ends with 1 where a child does. The source of the tree's conf is included, with another name for its `main`, since what
 * gives new symbols their defaults is in no other file; the rest is linked. */
#define main main_of_conf
#include "conf.c"
#undef main

#include <sys/wait.h>

static void write_values(FILE *out, struct menu *entry)
{
    for (; entry; entry = entry->next) {
        struct symbol *sym = entry->sym;
        if (sym && sym->name && sym->type != S_UNKNOWN) {
            sym_calc_value(sym);
            fprintf(out, "%s %d %s=%s\n", sym_type_name(sym->type), sym->implied.tri != no && sym->dir_dep.tri == no,
                sym->name, sym_get_string_value(sym));
        }
        write_values(out, entry->list);
    }
}

static int configure(const char *from, const char *to)
{
    char path[PATH_MAX];
    FILE *out;

    if (conf_read(from))
        return 1;
    conf_set_all_new_symbols(def_default);
    snprintf(path, sizeof path, "%s.values", to);
    out = fopen(path, "w");
    if (!out)
        return 1;
    write_values(out, rootmenu.list);
    if (fclose(out))
        return 1;
    snprintf(path, sizeof path, "%s.full", to);
    if (conf_write(path) || conf_read(path))
        return 1;
    snprintf(path, sizeof path, "%s.min", to);
    return conf_write_defconfig(path);
}

int main(int count, char **words)
{
    int failed = count < 2, status;

    if (failed)
        return 2;
    conf_set_message_callback(NULL);
    conf_parse(words[1]);
    for (int i = 2; i + 1 < count; i += 2) {
        if (!fork())
            _exit(configure(words[i], words[i + 1]));
        failed |= wait(&status) < 0 || status;
    }
    return failed;
}
