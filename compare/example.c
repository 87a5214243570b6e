/* Reads the sheet that the first argument names, opens it, runs one forward sweep and reports. */
#include "cirbaldu.h"
#include <inttypes.h>
#include <stdio.h>

static uint8_t sheet[22097], incumbent[64], records[7685];
static int64_t nodes[1024], labels[1024], edges[4096];
static uint64_t layout[326], counts[2];
static int64_t values[4];

/* How many records a sweep has: no label 255 has one. The labels stand behind the n degrees. */
static size_t sweep_records(void)
{
    size_t count = 2 * layout[3] + layout[4] + 1;
    for (size_t i = 0; i < layout[4]; i++)
        count -= sheet[layout[1] + i] == 255;
    return count;
}

static int refused(const char *call, uint8_t refusal)
{
    if (refusal != 0)
        printf("%s: refused %d\n", call, refusal);
    return refusal != 0;
}

int main(int argc, char **argv)
{
    FILE *file = argc == 2 ? fopen(argv[1], "rb") : NULL;
    if (file == NULL)
        return 1;
    size_t size = fread(sheet, 1, sizeof sheet, file);
    if (fclose(file) != 0 || refused("read", cirbaldu_read(sheet, size, layout, 326)))
        return 1;
    size_t n = layout[1], N = layout[4], M = layout[5], sweep = 5 * sweep_records();
    if (refused("open", cirbaldu_open(sheet, size, nodes, N, labels, N, edges, M, incumbent, n)))
        return 1;
    if (refused("sweep", cirbaldu_sweep(sheet, size, 0, records, sweep)))
        return 1;
    uint8_t stopped = cirbaldu_run(sheet, size, records, sweep, nodes, N, labels, N, edges, M, incumbent, n, counts, 2);
    if (refused("run", stopped) && stopped < 12)
        return 1;
    printf("done %" PRIu64 "\nstuck %" PRIu64 "\n", counts[0], counts[1]);
    if (refused("report", cirbaldu_report(sheet, size, nodes, N, labels, N, edges, M, incumbent, n, values, 4)))
        return 1;
    printf("bound %" PRId64 "\n", values[1]);
    if (values[0] == 1)
        printf("cost %" PRId64 "\ngap %" PRId64 "\n", values[2], values[3]);
    else
        printf("cost none\ngap none\n");
    return 0;
}
