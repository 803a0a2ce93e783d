/* The owed-transaction ledger for C hosts. docs/HOSTS.md has the layout of a snapshot and a program that uses all three functions.

   A ledger goes in and out as its snapshot: words of 64 bits, each as 8 bytes, least byte first. The library keeps nothing between
   two calls, allocates nothing and starts no thread; calls on different threads do not meet.

   A slice is a pointer and a length in bytes. It may lie at any address, and one of length 0 may come with any pointer, NULL too.
   A slice that is written must overlap no other slice of the call. The stack must have room for OWED_LEDGER_STACK bytes.

   Each function gives 0, or the number of its refusal. On 0 the bytes that it writes stand at the front of the slice; every byte
   beyond them keeps its content. A refused call writes no byte. The first refusal in the order of the list below a function is given. */
#ifndef OWED_LEDGER_H
#define OWED_LEDGER_H

#include <stddef.h>
#include <stdint.h>

#ifdef __cplusplus
extern "C" {
#endif

/* The numbers of the refusals. */
enum {
    OWED_LEDGER_NO_SHARD = 1,      /* local is 0 or above 2^33 - 1 */
    OWED_LEDGER_NO_SPAN = 2,       /* a span is 0 or above 2^40 */
    OWED_LEDGER_NO_TIME = 3,       /* now is above 2^48 - 1 */
    OWED_LEDGER_TOO_SHORT = 9,     /* out or reports is too short */
    OWED_LEDGER_NO_SNAPSHOT = 12,  /* the bytes are no snapshot by their number or their sizes */
    OWED_LEDGER_NEVER_WRITTEN = 13 /* they have a snapshot's form, but no ledger is written so */
};

/* The bytes of the longest snapshot, the bytes of the longest reports, and the stack that a call may use. */
#define OWED_LEDGER_LONGEST_SNAPSHOT 47672
#define OWED_LEDGER_LONGEST_REPORTS 1168
#define OWED_LEDGER_STACK 1048576

/* Makes an empty ledger of the shard local, with the spans v (validity), c (Core window) and l (LegEntry window), and writes its
   snapshot, 56 bytes, to out.
   Refusals: 1, 2, 9. */
uint64_t owed_ledger_make(uint64_t local, uint64_t v, uint64_t c, uint64_t l, uint8_t *out, size_t out_len);

/* Reads a snapshot, which shows that it is one, and writes the ledger's snapshot, the same bytes, to out.
   Refusals: 12, 13, 9. */
uint64_t owed_ledger_read(const uint8_t *snapshot, size_t len, uint8_t *out, size_t out_len);

/* Reads a snapshot, prunes the ledger at the time now, and writes the snapshot of the ledger after it to out. To reports it writes
   how many reports there are, how many entries fell, and then of each report the transaction, covered (1 or 0) and the charge.
   Refusals: 12, 13, 3, 9. */
uint64_t owed_ledger_prune(const uint8_t *snapshot, size_t len, uint64_t now, uint8_t *out, size_t out_len, uint8_t *reports,
                           size_t reports_len);

#ifdef __cplusplus
}
#endif

#endif
