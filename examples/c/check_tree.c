/* Checks one tree file: check_tree FILE */
#include "galdrisco.h"
#include "read_file.h"

#include <stdio.h>
#include <stdlib.h>

int main(int argc, char **argv)
{
    if (argc != 2) {
        fprintf(stderr, "usage: check_tree FILE\n");
        return 2;
    }
    size_t length;
    uint8_t *bytes = read_file(argv[1], &length);
    if (bytes == NULL) {
        fprintf(stderr, "%s: cannot be read\n", argv[1]);
        return 2;
    }
    uint32_t refusal = galdrisco_check_tree(bytes, length);
    free(bytes);
    if (refusal == 0)
        printf("%s: ok\n", argv[1]);
    else
        printf("%s: refused (%u)\n", argv[1], (unsigned)refusal);
    return refusal == 0 ? 0 : 1;
}
