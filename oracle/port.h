/* A call of the port as the harness hands it over, and what came back. src/types.rs has the same layout. */
#ifndef ORACLE_PORT_H
#define ORACLE_PORT_H

#include "spindle.h"

#define SLICES 6
/* numbers before and behind a slice, which no call may touch, and room for the longest */
#define BEFORE 4
#define ROOM 76

typedef struct {
    uint64_t len;
    double room[ROOM];
} Slice;
typedef struct {
    uint32_t entry, option;
    SpindleScaling record;
    Slice slices[SLICES];
    double numbers[3];
} Call;
typedef struct {
    uint32_t code, answer, counts[2];
    double values[3];
    SpindleThree three;
    SpindleWide wide;
    SpindleScaling record;
} Reply;

_Static_assert(sizeof(Call) == 4 + 4 + sizeof(SpindleScaling) + SLICES * (8 + 8 * ROOM) + 24, "Call is laid out as in types.rs");

/* Makes the call: writes what it answers to the reply, and into the call's slices. A call over a record has two forms, by value and in place, every other
   call has one. An update in place is made on a copy of the record, and what it leaves there is the reply's record: so the call's own has its bits after
   every call. */
void oracle_port(Call *call, Reply *reply, uint32_t in_place);

#endif
