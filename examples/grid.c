/* A grid from start to end: uniform start, one leaf refined, written to a file, read back, and dealt out to three machines. */
#include <inttypes.h>
#include <stdio.h>
#include <string.h>

#include "gwerniloc.h"

enum { ROOTS = 2, LEAVES = 64, SHARES = 3 };

/* A list: so many leaves at the front of three columns. */
struct list {
    size_t count;
    uint16_t root[LEAVES];
    uint8_t level[LEAVES];
    uint64_t position[LEAVES];
};

static int refused(const char *call, uint64_t word)
{
    if (word != 0)
        printf("%s: refused %u place %" PRIu64 "\n", call, GW_REFUSAL_NUMBER(word), GW_REFUSAL_PLACE(word));
    return word != 0;
}

static void print_shares(const struct list *l, const uint32_t *boundary)
{
    for (uint32_t s = 0; s < SHARES; s++) {
        uint32_t from = boundary[s], to = boundary[s + 1];
        printf("share %" PRIu32 ": %" PRIu32 " leaves", s, to - from);
        if (from < to)
            printf(", from root %u level %u position %" PRIu64, l->root[from], l->level[from], l->position[from]);
        printf("\n");
    }
}

int main(void)
{
    static struct list start, grid, loaded;
    uint8_t mark[LEAVES] = {0}, file[64];
    uint16_t weight[LEAVES];
    uint32_t boundary[SHARES + 1];

    gw_number_result n = gw_list_uniform(ROOTS, 1, start.root, LEAVES, start.level, LEAVES, start.position, LEAVES);
    if (refused("uniform", n.refusal))
        return 1;
    start.count = n.value;

    mark[2] = 1;
    n = gw_list_adapt(ROOTS, start.root, start.count, start.level, start.count, start.position, start.count, mark, start.count,
                      grid.root, LEAVES, grid.level, LEAVES, grid.position, LEAVES);
    if (refused("adapt", n.refusal))
        return 1;
    grid.count = n.value;

    n = gw_file_write(ROOTS, grid.root, grid.count, grid.level, grid.count, grid.position, grid.count, file, sizeof file);
    if (refused("write", n.refusal))
        return 1;
    printf("%zu leaves in %" PRIu64 " bytes:", grid.count, n.value);
    for (uint64_t i = 0; i < n.value; i++)
        printf(" %02x", file[i]);
    printf("\n");

    gw_grid_result g = gw_file_read(file, n.value, loaded.root, LEAVES, loaded.level, LEAVES, loaded.position, LEAVES);
    if (refused("read", g.refusal))
        return 1;
    loaded.count = g.leaves;
    printf("read back: %u roots, the same leaves: %s\n", (unsigned)g.roots,
           memcmp(&loaded, &grid, sizeof grid) == 0 ? "yes" : "no");

    for (size_t i = 0; i < loaded.count; i++)
        weight[i] = 1;
    if (refused("shares", gw_list_shares(ROOTS, SHARES, loaded.root, loaded.count, loaded.level, loaded.count, loaded.position,
                                         loaded.count, weight, loaded.count, boundary, SHARES + 1)))
        return 1;
    print_shares(&loaded, boundary);

    /* A file that breaks off is refused, and the columns stay as they are. */
    g = gw_file_read(file, n.value - 1, loaded.root, LEAVES, loaded.level, LEAVES, loaded.position, LEAVES);
    refused("read of a cut file", g.refusal);
    return memcmp(&loaded, &grid, sizeof grid) != 0;
}
