/* Answers the rows of its standard input by the library, each as its status, the number of its bytes, and these. A row has the words
   of a command line, with tabs between: run, words or image CEDT TOPO SCRIPT [IMAGE], tree TOPO, decoders TOPO IMAGE,
   breaches CEDT TOPO IMAGE, windows CEDT TOPO, and else as the program has them. */
#include <cxlplan.h>
#include <stdio.h>
#include <stdlib.h>
#include <string.h>

struct file {
    void *bytes;
    size_t len;
};

static struct file read_file(const char *name)
{
    struct file file = {NULL, 0};
    FILE *from = fopen(name, "rb");
    long len;

    if (!from || fseek(from, 0, SEEK_END) || (len = ftell(from)) < 0 || fseek(from, 0, SEEK_SET)) {
        perror(name);
        exit(70);
    }
    /* no byte more than there is, so that a read behind them is seen */
    file.bytes = malloc(len ? len : 1);
    file.len = file.bytes ? fread(file.bytes, 1, len, from) : 0;
    fclose(from);
    return file;
}

static int call(int count, char **words, struct file *files, char *out, size_t room, size_t *written)
{
    struct file none = {NULL, 0}, image = count > 4 ? files[4] : none;

    if (!strcmp(words[0], "route"))
        return cxlplan_route(files[1].bytes, files[1].len, strtoull(words[2], NULL, 0), out, room, written);
    if (!strcmp(words[0], "list"))
        return cxlplan_list(files[1].bytes, files[1].len, out, room, written);
    if (!strcmp(words[0], "normal"))
        return cxlplan_normal(files[1].bytes, files[1].len, out, room, written);
    if (!strcmp(words[0], "check"))
        return cxlplan_check(files[1].bytes, files[1].len, files[2].bytes, files[2].len, files[3].bytes, files[3].len, out, room,
                             written);
    if (!strcmp(words[0], "plan"))
        return cxlplan_plan(files[1].bytes, files[1].len, files[2].bytes, files[2].len, words[3], strlen(words[3]), out, room,
                            written);
    if (!strcmp(words[0], "run"))
        return cxlplan_run(files[1].bytes, files[1].len, files[2].bytes, files[2].len, image.bytes, image.len, files[3].bytes,
                           files[3].len, out, room, written);
    if (!strcmp(words[0], "words"))
        return cxlplan_words(files[1].bytes, files[1].len, files[2].bytes, files[2].len, image.bytes, image.len, files[3].bytes,
                             files[3].len, out, room, written);
    if (!strcmp(words[0], "image"))
        return cxlplan_image(files[1].bytes, files[1].len, files[2].bytes, files[2].len, image.bytes, image.len, files[3].bytes,
                             files[3].len, out, room, written);
    if (!strcmp(words[0], "tree"))
        return cxlplan_tree(files[1].bytes, files[1].len, out, room, written);
    if (!strcmp(words[0], "decoders"))
        return cxlplan_decoders(files[1].bytes, files[1].len, files[2].bytes, files[2].len, out, room, written);
    if (!strcmp(words[0], "breaches"))
        return cxlplan_breaches(files[1].bytes, files[1].len, files[2].bytes, files[2].len, files[3].bytes, files[3].len, out, room,
                                written);
    if (!strcmp(words[0], "windows"))
        return cxlplan_windows(files[1].bytes, files[1].len, files[2].bytes, files[2].len, out, room, written);
    if (!strcmp(words[0], "gen"))
        return cxlplan_gen((uint32_t)strtoul(words[1], NULL, 0), out, room, written);
    return cxlplan_version(out, room, written);
}

/* Whether this word of a command is the name of a file. */
static int is_file(char **words, int at)
{
    static const char *forms[] = {"", "route list normal tree", "plan decoders windows", "check breaches", "run words image"};

    for (int count = 1; count < 5; count++)
        if (strstr(forms[count], words[0]))
            return at > 0 && at <= count;
    return 0;
}

static void answer(char *row)
{
    char *words[8] = {0}, *out = NULL;
    struct file files[8] = {{0}};
    int count = 0, status;
    size_t room = 8192, written = 0;

    for (char *word = strtok(row, "\t\n"); word && count < 8; word = strtok(NULL, "\t\n"))
        words[count++] = word;
    for (int i = 0; i < count; i++)
        if (is_file(words, i))
            files[i] = read_file(words[i]);
    do {
        room *= 8;
        free(out);
        out = malloc(room);
        status = out ? call(count, words, files, out, room, &written) : CXLPLAN_NO_MEMORY;
    } while (status == CXLPLAN_WRITE_FAULT);
    printf("%d %zu\n", status, written);
    fwrite(out, 1, written, stdout);
    free(out);
    for (int i = 0; i < count; i++)
        free(files[i].bytes);
}

int main(void)
{
    static char row[65536];

    while (fgets(row, sizeof row, stdin))
        answer(row);
    return 0;
}
