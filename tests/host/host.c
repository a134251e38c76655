/* host [POWER]: calls every function of the library with good, bad and extreme arguments, its slices up to 2^POWER bytes
 * long (46 if not given). Ends with 1 after the first subject of which anything is not as said. */
#include "calls.h"
#include "subjects.h"

#include <stdlib.h>

int main(int count, char **arguments)
{
    static void (*const tests[])(void) = {test_reading,  test_writing, test_verdicts, test_large,
                                          test_sessions, test_texts,   test_slices};
    calls_start();
    test_huge(count > 1 ? atoi(arguments[1]) : 46);
    for (size_t k = 0; k < sizeof tests / sizeof tests[0] && calls_hold(); k++)
        tests[k]();
    return !calls_end();
}
