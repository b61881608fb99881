/* From an element to its child, back to a number, across a face, to its corners in space, and refusals. */
#include <inttypes.h>
#include <stdio.h>

#include "gwerniloc.h"

static void print_prism(const char *name, gw_prism_result a)
{
    if (a.refusal != 0) {
        printf("%s: refused %u place %" PRIu64 "\n", name, GW_REFUSAL_NUMBER(a.refusal), GW_REFUSAL_PLACE(a.refusal));
        return;
    }
    printf("%s: level %u anchor %" PRIu32 " %" PRIu32 " %" PRIu32 " type %u\n", name, (unsigned)a.value.level,
           a.value.x, a.value.y, a.value.z, (unsigned)a.value.kind);
}

static void print_number(const char *name, gw_number_result a)
{
    if (a.refusal != 0)
        printf("%s: refused %u place %" PRIu64 "\n", name, GW_REFUSAL_NUMBER(a.refusal), GW_REFUSAL_PLACE(a.refusal));
    else
        printf("%s: %" PRIu64 "\n", name, a.value);
}

/* Corner 1 of four elements of level 1. */
static void print_section(const uint64_t position[4], gw_root root)
{
    double x[4], y[4], z[4];
    uint64_t refusal = gw_corner_points(1, position, 4, 1, root, x, 4, y, 4, z, 4);
    if (refusal != 0)
        printf("section: refused %u place %" PRIu64 "\n", GW_REFUSAL_NUMBER(refusal), GW_REFUSAL_PLACE(refusal));
    for (int i = 0; refusal == 0 && i < 4; i++)
        printf("corner 1 of element %" PRIu64 ": %g %g %g\n", position[i], x[i], y[i], z[i]);
}

int main(void)
{
    gw_prism_result element = gw_prism_at(1, 6);
    gw_prism_result child = gw_prism_child(element.value, 1);

    print_prism("element 6 of level 1", element);
    print_prism("its child 1", child);
    print_number("the child's position", gw_prism_position(child.value));
    print_prism("across face 2", gw_prism_neighbour(element.value, 2));
    print_prism("across face 4", gw_prism_neighbour(element.value, 4));

    /* The eight children, as columns; then with the type of the sixth damaged. */
    uint8_t level[GW_PRISM_CHILDREN], kind[GW_PRISM_CHILDREN];
    uint32_t x[GW_PRISM_CHILDREN], y[GW_PRISM_CHILDREN], z[GW_PRISM_CHILDREN];
    for (uint8_t i = 0; i < GW_PRISM_CHILDREN; i++) {
        gw_prism c = gw_prism_child(element.value, i).value;
        level[i] = c.level;
        x[i] = c.x;
        y[i] = c.y;
        z[i] = c.z;
        kind[i] = c.kind;
    }
    print_number("its children are a family", gw_prism_family(x, 8, y, 8, z, 8, level, 8, kind, 8));
    kind[5] = 2;
    print_number("with one damaged", gw_prism_family(x, 8, y, 8, z, 8, level, 8, kind, 8));
    /* A corner of the element in a root in space: 50 50 20. */
    gw_root root = {{{0, 0, 0}, {100, 0, 0}, {100, 100, 0}, {0, 0, 40}, {100, 0, 40}, {100, 100, 40}}};
    gw_point_result point = gw_corner_point(1, 6, 1, root);
    printf("corner 1 of element 6: %g %g %g\n", point.value.x, point.value.y, point.value.z);
    /* The same corner of all four elements on top, in one call; then with a position that level 1 does not have. */
    print_section((uint64_t[]){4, 5, 6, 7}, root);
    print_section((uint64_t[]){4, 5, 8, 7}, root);
    root.corner[5].z = 513;
    printf("beyond 512: refused %u\n", GW_REFUSAL_NUMBER(gw_corner_point(1, 6, 1, root).refusal));
    return 0;
}
