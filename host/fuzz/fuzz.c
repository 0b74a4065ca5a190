/* The fuzzer's side: libFuzzer hands over inputs; FUZZ_TARGET names the call that they are for. */
#include "harness.h"

#include <stdio.h>
#include <stdlib.h>

int LLVMFuzzerInitialize(int *argc, char ***argv);
int LLVMFuzzerTestOneInput(const uint8_t *bytes, size_t length);

static const target *which;

int LLVMFuzzerInitialize(int *argc, char ***argv)
{
    const char *call = getenv("FUZZ_TARGET");
    (void)argc;
    (void)argv;
    which = call != NULL ? target_of(call) : NULL;
    if (which == NULL) {
        fprintf(stderr, "fuzz: FUZZ_TARGET names no call of eskelvor.h\n");
        exit(2);
    }
    return 0;
}

int LLVMFuzzerTestOneInput(const uint8_t *bytes, size_t length)
{
    run_target(which, bytes, length);
    return 0;
}
