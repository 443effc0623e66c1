/* The slot record: what the scheduler hands to a probe in each slot. 312 bytes, little-endian, no padding.
 * A probe is a function of this record that returns one number, its verdict. */
#ifndef SLOT_H
#define SLOT_H

typedef unsigned char u8;
typedef unsigned short u16;
typedef unsigned int u32;
typedef unsigned long long u64;
typedef signed short s16;
typedef signed int s32;

#define SLOT_UES 8
#define SLOT_LAYERS 16
#define SLOT_BEAMS 32

struct slot_ue {
    u32 rnti;
    u16 prb_start;
    u16 prb_count;
    u8 mcs;
    u8 harq;
    u8 redundancy; /* 0: a new transmission */
    u8 ndi;
    u32 tbs;
    u16 cqi;
    u16 rank;
    u32 bytes;
}; /* 24 bytes */

struct slot {
    u8 ues;        /* byte 0: how many of `ue` are scheduled */
    u8 numerology; /* 1 */
    u8 flags;      /* 2 */
    u8 cell;       /* 3 */
    u16 prb_used;  /* 4 */
    u16 prb_total; /* 6 */
    u32 number;    /* 8: of the slot, counted from the start */
    s16 rssi;      /* 12: in 1/100 dBm */
    u16 focus;     /* 14: the user that the operator looks at */
    u64 time;      /* 16: in nanoseconds */
    u16 sinr[SLOT_LAYERS];       /* 24 */
    u8 beam_load[SLOT_BEAMS];    /* 56 */
    u32 counter[8];              /* 88 */
    struct slot_ue ue[SLOT_UES]; /* 120 */
}; /* 312 bytes */

/* A probe stands in a section of its own, so that its object has one program. */
#define PROBE __attribute__((section("slot_probe"), used)) u64

#endif
