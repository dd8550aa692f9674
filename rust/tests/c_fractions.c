/*
 * The calls over single fractions. Takes the name of a call without its dirmoog_ and its numbers, two for a fraction that
 * is rounded or five for two places and a distance whose slack is asked for, and prints what the call returns and tells.
 */
#include <dirmoog.h>
#include <inttypes.h>
#include <stdio.h>
#include <stdlib.h>
#include <string.h>

int main(int count, char **words)
{
    int64_t n[5] = {0, 0, 0, 0, 0}, out[2] = {77, 77};
    uint64_t number;
    int i;

    if (count != 4 && count != 7)
        return 1;
    for (i = 2; i < count; i++)
        n[i - 2] = strtoll(words[i], NULL, 10);
    if (count == 4 && strcmp(words[1], "round") == 0)
        number = dirmoog_round(n[0], n[1], out, 2);
    else if (count == 4 && strcmp(words[1], "round_half_up") == 0)
        number = dirmoog_round_half_up(n[0], n[1], out, 2);
    else if (count == 7 && strcmp(words[1], "slack") == 0)
        number = dirmoog_slack(n[0], n[1], n[2], n[3], n[4], out, 2);
    else
        return 1;
    return printf("%" PRIu64 " %" PRId64 " %" PRId64 "\n", number, out[0], out[1]) < 0;
}
