/* A plain loop to measure `node replay` against: reads the rows of one listing from standard input, and prints them a
   thousand times with printf, field by field, as the program does. */
#include <stdio.h>

struct row {
    unsigned conn, asked[3], done[3];
    char side[16], phase[16], peer[128];
};

static struct row rows[256];

int main(void)
{
    int count = 0;
    struct row *r = rows;
    while (count < 256
           && scanf(" conn %u %15s %15s %127s %u/%u %u/%u %u/%u", &r->conn, r->side, r->phase, r->peer, &r->done[0],
                    &r->asked[0], &r->done[1], &r->asked[1], &r->done[2], &r->asked[2]) == 10) {
        count++;
        r++;
    }
    for (int listing = 0; listing < 1000; listing++) {
        printf("front %d\n", count);
        for (r = rows; r < rows + count; r++) {
            printf("conn %u %s %s %s", r->conn, r->side, r->phase, r->peer);
            for (int i = 0; i < 3; i++)
                printf(" %u/%u", r->done[i], r->asked[i]);
            putchar('\n');
        }
        puts("end");
    }
    return 0;
}
