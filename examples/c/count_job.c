/* Counts a job: count_job TREE SHEET LIST */
#include "galdrisco.h"
#include "read_file.h"

#include <stdio.h>
#include <stdlib.h>

int main(int argc, char **argv)
{
    if (argc != 4) {
        fprintf(stderr, "usage: count_job TREE SHEET LIST\n");
        return 2;
    }
    char *end;
    unsigned long list = strtoul(argv[3], &end, 10);
    if (argv[3][0] < '0' || argv[3][0] > '9' || *end != '\0') {
        fprintf(stderr, "%s: not the number of a list\n", argv[3]);
        return 2;
    }
    size_t tree_length, sheet_length;
    uint8_t *tree = read_file(argv[1], &tree_length);
    uint8_t *sheet = read_file(argv[2], &sheet_length);
    if (tree == NULL || sheet == NULL) {
        fprintf(stderr, "%s: cannot be read\n", tree == NULL ? argv[1] : argv[2]);
        free(tree);
        free(sheet);
        return 2;
    }
    struct galdrisco_job job = galdrisco_count_job(tree, tree_length, sheet, sheet_length, list);
    free(tree);
    free(sheet);
    if (job.refusal == GALDRISCO_NO_MEMORY)
        printf("there is not enough memory\n");
    else if (job.refusal != 0)
        printf("refused (%zu)\n", job.refusal);
    else
        printf("%zu lines: %zu offered, %zu withheld, %zu absent, %zu unreadable; share %zu %%\n", job.lines,
               job.offered, job.withheld, job.absent, job.unreadable, job.share);
    return job.refusal == 0 ? 0 : 1;
}
