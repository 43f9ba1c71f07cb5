/* Two tetrahedra that share an edge are read, cut and walked face by face. It exits with 1 on a result that is not the right one. */
#include "brimclif.h"

#include <inttypes.h>
#include <stdio.h>
#include <string.h>

#define ENTRIES 32
#define CORNERS 24

static const char input[] = "[0 1 2 -1 0 3 1 -1 0 2 3 -1 1 3 2 -1 0 1 4 -1 0 5 1 -1 0 4 5 -1 1 5 4 -1]";

static const char expected_list[] =
    "[0, 1, 2, -1, 0, 3, 1, -1, 0, 2, 3, -1, 1, 3, 2, -1, 4, 5, 6, -1, 4, 7, 5, -1, 4, 6, 7, -1, 5, 7, 6, -1]";

static const char expected_map[] = "[0, 1, 2, 3, 0, 1, 4, 5]";

/* Writes the list as a text, prints it, and tells whether it is the expected one. */
static int shows(const char *name, const int32_t *list, size_t len, const char *expected)
{
    uint8_t text[256];
    uint64_t answer[3];
    brimclif_write(list, len, text, sizeof text, answer);
    if (answer[0] != 0 || answer[2] != strlen(expected))
        return 0;
    printf("%s %.*s\n", name, (int)answer[2], (const char *)text);
    return memcmp(text, expected, strlen(expected)) == 0;
}

/* Prints each face of the new list with the input's vertices behind it, and tells how many faces there are. */
static uint64_t walk(const int32_t *new_list, size_t len, const int32_t *map)
{
    uint64_t k, span[2];
    for (k = 0; brimclif_face(new_list, len, k, span), span[0] < span[1]; k++) {
        printf("face %" PRIu64 ":", k);
        for (uint64_t i = span[0]; i < span[1]; i++)
            printf(" %" PRId32 "(%" PRId32 ")", new_list[i], map[new_list[i]]);
        printf("\n");
    }
    return k;
}

int main(void)
{
    int32_t list[ENTRIES], new_list[ENTRIES], map[CORNERS];
    uint32_t work[4 * CORNERS];
    uint8_t classes[6];
    uint64_t read[3], checked[4], edge[3], classed[2], cut[7];
    const uint64_t n = 6;

    brimclif_read((const uint8_t *)input, strlen(input), list, ENTRIES, read);
    if (read[0] != 0 || read[2] != ENTRIES)
        return 1;
    brimclif_check(list, ENTRIES, n, checked);
    if (checked[0] != 0 || checked[2] != 8 || checked[3] != CORNERS)
        return 1;
    brimclif_edge(list, ENTRIES, n, 0, 1, edge);
    printf("faces on the edge 0 1: %" PRIu64 "\n", edge[2]);
    if (edge[0] != 0 || edge[2] != 4)
        return 1;
    brimclif_classes(list, ENTRIES, n, classes, sizeof classes, work, 4 * CORNERS, classed);
    if (classed[0] != 0 || memcmp(classes, "\3\3\1\1\1\1", 6) != 0)
        return 1;
    brimclif_cut(list, ENTRIES, n, new_list, ENTRIES, map, CORNERS, work, 4 * CORNERS, cut);
    printf("code %" PRIu64 ", %" PRIu64 " new vertices, %" PRIu64 " singular edge, %" PRIu64 " singular vertices\n", cut[0], cut[4],
           cut[5], cut[6]);
    if (cut[0] != 0 || cut[4] != 8 || cut[5] != 1 || cut[6] != 2)
        return 1;
    if (!shows("list", new_list, ENTRIES, expected_list) || !shows("map", map, cut[4], expected_map))
        return 1;
    if (walk(new_list, ENTRIES, map) != checked[2])
        return 1;
    brimclif_cut(list, ENTRIES, n, new_list, ENTRIES, map, CORNERS - 1, work, 4 * CORNERS, cut);
    printf("a map too short: code %" PRIu64 ", place %" PRIu64 "\n", cut[0], cut[1]);
    return cut[0] == 7 && cut[1] == CORNERS ? 0 : 1;
}
