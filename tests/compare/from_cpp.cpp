// The header in C++17: its asserts hold, its macros and inline functions work, and what it declares links.
#include "mvb.h"

int main()
{
    const uint32_t may_send = mvb_guard(136, 70, 0), bad_gap = mvb_guard(136, 3, 0);
    const bool guard = !MVB_REFUSED(may_send) && MVB_NUMBER(may_send) == 0 && may_send == 1;
    const bool refused = MVB_REFUSED(bad_gap) && MVB_NUMBER(bad_gap) == MVB_OUT_OF_RANGE;
    const bool empty = mvb_check_of(mvb_in(nullptr), 0) == 0xFF && mvb_out(nullptr) != nullptr &&
                       mvb_numbers(nullptr) != nullptr && mvb_table(nullptr) != nullptr;
    return guard && refused && empty && !MVB_REFUSED(MVB_END) ? 0 : 1;
}
