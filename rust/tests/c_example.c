/* Reads a sheet's text, lays the sheet out and prints the listing, as the station program does. */
#include <dirmoog.h>
#include <stdio.h>

enum { LABELS = 48, GAPS = 192, TEXT = 16385, LISTING = 24576 };

int main(void)
{
    static uint8_t text[TEXT], kind[GAPS], carried[GAPS], back[LABELS], listing[LISTING];
    static int64_t wanted[LABELS], weight[LABELS], distance[GAPS];
    static uint64_t left[GAPS], right[GAPS], ring[LABELS];
    static int64_t place_num[LABELS], place_den[LABELS], mult_num[GAPS], mult_den[GAPS];
    uint64_t told[2] = {0, 0}, labels = 0, gaps = 0, field = 0, number, bytes;
    size_t size = fread(text, 1, TEXT, stdin);

    if (ferror(stdin)) /* a failed read is not a short sheet */
        return 1;
    number = dirmoog_read(text, size, wanted, LABELS, weight, LABELS, left, GAPS, right, GAPS, distance, GAPS,
                          kind, GAPS, told, 2);
    if (number == 0) {
        labels = told[0];
        gaps = told[1];
        number = dirmoog_layout(wanted, labels, weight, labels, left, gaps, right, gaps, distance, gaps,
                                kind, gaps, carried, gaps, place_num, LABELS, place_den, LABELS,
                                mult_num, GAPS, mult_den, GAPS, ring, LABELS, back, LABELS, told, 2);
    } else {
        field = told[1]; /* the bad field; what dirmoog_layout tells there is the ring's length */
    }
    if (dirmoog_listing(number, told[0], field, place_num, labels, place_den, labels, left, gaps, right, gaps,
                        distance, gaps, listing, LISTING, &bytes, 1) != 0)
        return 1;
    return fwrite(listing, 1, bytes, stdout) == bytes && fflush(stdout) == 0 ? 0 : 1;
}
