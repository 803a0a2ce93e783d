/* Makes a ledger, reads one that was stored, prunes it, and prints what each call gave. */
#include <inttypes.h>
#include <stdio.h>
#include <string.h>

#include "owed_ledger.h"

/* A word of a snapshot or of reports: 8 bytes, least byte first. */
static uint64_t word(const uint8_t *bytes, size_t i) {
    uint64_t n = 0;
    for (size_t k = 8; k > 0; k--) {
        n = n << 8 | bytes[8 * i + k - 1];
    }
    return n;
}

/* Where the number of entries stands, and behind it that of departures: the counts lie ahead of them. */
static size_t sizes(const uint8_t *bytes) {
    return word(bytes, 4) * 2 + 5;
}

/* How many bytes a snapshot has, by its own sizes. */
static size_t snapshot_len(const uint8_t *bytes) {
    size_t at = sizes(bytes);
    size_t entries = word(bytes, at);
    size_t words = at + 2 + entries + 4 * word(bytes, at + 1);
    for (size_t i = 0; i < entries; i++) {
        words += word(bytes, at + 2 + i);
    }
    return words * 8;
}

/* A ledger with one entry, which a record of shard 5 rebuilt, and one departure, of shard 6. */
static const uint64_t stored[30] = {
    4, 100, 50, 200, 1, 5, 1, 1, 1, 16,                  /* the numbers in front, shard 5's count among them, the entry's length */
    1, 0, 0, 9, 1000, 1100, 10, 7, 0, UINT64_C(1) << 62, /* the entry: its admission */
    0, 2, 5, 0, 0, 0,                                    /* and its history */
    6, 12, 1, 30,                                        /* the departure */
};

int main(void) {
    static uint8_t ledger[OWED_LEDGER_LONGEST_SNAPSHOT];
    static uint8_t after[OWED_LEDGER_LONGEST_SNAPSHOT];
    uint8_t reports[OWED_LEDGER_LONGEST_REPORTS];

    uint64_t refused = owed_ledger_make(4, 100, 50, 200, ledger, sizeof ledger);
    printf("make: %" PRIu64 ", %zu bytes\n", refused, snapshot_len(ledger));

    for (size_t i = 0; i < sizeof stored; i++) {
        ledger[i] = (uint8_t)(stored[i / 8] >> 8 * (i % 8));
    }
    refused = owed_ledger_read(ledger, sizeof stored, after, sizeof after);
    printf("read: %" PRIu64 ", the same bytes: %s\n", refused, memcmp(ledger, after, sizeof stored) == 0 ? "yes" : "no");

    refused = owed_ledger_prune(ledger, sizeof stored, 0, after, sizeof after, reports, sizeof reports);
    printf("prune: %" PRIu64 ", %" PRIu64 " written, %" PRIu64 " fallen\n", refused, word(reports, 0), word(reports, 1));
    for (size_t i = 0; i < word(reports, 0); i++) {
        printf("report: transaction %" PRIu64 ", covered %" PRIu64 ", charge %" PRIu64 "\n",
               word(reports, 2 + 3 * i), word(reports, 3 + 3 * i), word(reports, 4 + 3 * i));
    }
    size_t at = sizes(after);
    printf("after it: %zu bytes, %" PRIu64 " entries, %" PRIu64 " departures\n", snapshot_len(after), word(after, at), word(after, at + 1));

    refused = owed_ledger_read(ledger, sizeof stored - 8, after, sizeof after);
    printf("read of a word less: %" PRIu64 "\n", refused);
    return 0;
}
