/* Fuzzed calls of the C face. TARGET is the one that is run. */
#include "targets/read.h"
#include "targets/desk.h"
#include "targets/flatten.h"
#include "targets/within.h"
#include "targets/apart.h"
#include "targets/refresh.h"
#include "targets/sheet.h"

int LLVMFuzzerTestOneInput(const uint8_t *data, size_t size)
{
    /* the other targets are compiled all the same */
    static void (*const targets[])(Bytes) = {fuzz_read,  fuzz_desk,    fuzz_flatten, fuzz_within,
                                              fuzz_apart, fuzz_refresh, fuzz_sheet,   TARGET};
    Bytes in = {data, size};
    targets[7](in);
    return 0;
}
