// How 64-bit numbers are written and read by stdio.
#ifndef INTTYPES_H
#define INTTYPES_H

#include <stdint.h>

#define PRId64 __INT64_FMTd__
#define PRIu32 __UINT32_FMTu__
#define PRIu64 __UINT64_FMTu__
#define PRIx64 __UINT64_FMTx__
#define SCNd64 __INT64_FMTd__
#define SCNu64 __UINT64_FMTu__

#endif
