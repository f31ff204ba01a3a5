/*
 * Tests the module as a C program sees it: calls.c the calls, frames.c the frame check, versions.c
 * frames of both versions at panels, readers.c the readers of logs and bundles, the texts and the
 * version. The last line counts the checks. tests/run.sh builds and runs it.
 */
#include "steps.h"

int main(void)
{
    test_calls();
    test_frames();
    test_versions();
    test_readers();
    all_answered();
    return checked();
}
