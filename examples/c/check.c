/* Says whether a register image is sound, as `cxlplan check CEDT TOPO IMAGE` does, and ends with the same exit status. */
#include <cxlplan.h>
#include <stdio.h>
#include <stdlib.h>

struct file {
    void *bytes;
    size_t len;
};

/* The bytes of a file, at most one more than the library takes. */
static struct file read_file(const char *name)
{
    struct file file = {malloc(1048577), 0};
    FILE *from = fopen(name, "rb");

    if (!file.bytes || !from) {
        fprintf(stderr, "cannot read %s\n", name);
        exit(CXLPLAN_FETCH_FAULT);
    }
    file.len = fread(file.bytes, 1, 1048577, from);
    fclose(from);
    return file;
}

int main(int count, char **words)
{
    if (count != 4) {
        fprintf(stderr, "usage: check CEDT TOPO IMAGE\n");
        return CXLPLAN_USAGE;
    }
    struct file cedt = read_file(words[1]), topo = read_file(words[2]), image = read_file(words[3]);
    char *out = NULL;
    size_t room = 4096, written = 0;
    int status;
    do {
        room *= 8;
        free(out);
        out = malloc(room);
        status = out ? cxlplan_check(cedt.bytes, cedt.len, topo.bytes, topo.len, image.bytes,
                                     image.len, out, room, &written)
                     : CXLPLAN_NO_MEMORY;
    } while (status == CXLPLAN_WRITE_FAULT);
    fwrite(out, 1, written, stdout);
    free(out);
    free(image.bytes);
    free(topo.bytes);
    free(cedt.bytes);
    return status;
}
