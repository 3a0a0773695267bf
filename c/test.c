/* The reader as a C program sees it: prints how many checks there were, and ends with 1 where one differs. */
#include "check.h"

int main(void) {
    test_examples();
    test_refusals();
    test_calls();
    test_marks();
    test_held();
    test_damage();
    test_tellings();
    summary();
    return found_differences();
}
