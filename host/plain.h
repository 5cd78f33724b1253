/* A plain judge that carries its state from record to record. */
#ifndef PLAIN_H
#define PLAIN_H

#include <stdbool.h>
#include <stddef.h>
#include <stdint.h>

enum { PLAIN_BANKS = 4, PLAIN_BURSTS = 4 };

/* A bank. A time after which a command may stand is held as its due time: the
 * event plus the minimum, in ps, 0 where the event has never occurred. */
struct plain_bank {
    bool open;
    uint32_t row;
    uint64_t active;   /* the latest ACTIVE, in ps */
    uint64_t trcd_due; /* READ, WRITE */
    uint64_t tras_due; /* PRECHARGE while open */
    uint64_t twr_due;  /* PRECHARGE while open */
    uint64_t trc_due;  /* ACTIVE */
    uint64_t trrd_due; /* ACTIVE */
    uint64_t trp_due;  /* whatever asks for its closing */
};

/* A READ or WRITE burst. It works on its columns on the clocks from start to
 * before stop; a READ's data stand on the bus latency clocks later. */
struct plain_burst {
    uint64_t start;
    uint64_t stop;
    uint32_t latency; /* 0 for a WRITE */
    uint32_t bank;
    uint32_t row;
    uint32_t column;
    uint32_t wrap; /* the column bits that change inside the burst */
    bool interleaved;
    bool write;
};

struct plain_mode {
    bool loaded;
    bool interleaved;
    uint32_t latency;
    uint32_t wrap;
    uint64_t length;
    uint64_t write_length;
};

/* All that one record must know of those before it. */
struct plain_device {
    uint64_t table[13];
    uint64_t period;
    uint64_t next_clock; /* where a record with no skipped clocks would stand */
    uint32_t masks;      /* of the last three clocks, a byte each, the latest lowest */
    uint32_t refreshes;  /* done, counted to two */
    bool precharged;     /* the first PRECHARGE ALL has been */
    struct plain_mode mode;
    uint64_t trfc_due;          /* any executable command */
    uint64_t tmrd_due;          /* any executable command */
    uint64_t precharge_all_due; /* any executable command */
    uint64_t refresh_limit;     /* the last ps that is not late for a refresh */
    uint64_t row_limit;         /* the last ps that no open row is too old for */
    uint64_t auto_end;          /* clock at which the auto precharge burst ends */
    struct plain_bank bank[PLAIN_BANKS];
    struct plain_burst burst[PLAIN_BURSTS]; /* a ring of the latest */
    uint32_t newest;
};

/* Judges a whole trace: parameters and answer as for second_judge. */
uint64_t plain_judge(const uint8_t *trace, size_t trace_len,
                     uint8_t *page, size_t page_len,
                     uint64_t *beats, size_t beats_len,
                     const uint64_t table[13]);

/* The same, one record of 16 bytes at a time, for whoever looks for the
 * earliest clock of a command. Ask gives the number, with the interval eight
 * bits above it, and changes nothing; take is for a record so asked that got
 * 0. Period and table are within the bounds of 01. */
void plain_begin(struct plain_device *d, uint64_t period, const uint64_t table[13]);
uint32_t plain_ask(const struct plain_device *d, const uint8_t *record);
void plain_take(struct plain_device *d, const uint8_t *record);

#endif
