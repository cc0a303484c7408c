/* Makes one CALL, which an option of the compiler names. With THROWN_AWAY its answer is not used, and a compiler for
 * which warnings are errors has to refuse that. It is compiled only, and is C++ too. */
#include "gaplinte.h"

gaplinte_plan plan, woven;
gaplinte_tried tried;
gaplinte_shown shown;
gaplinte_figures figures;
gaplinte_place place;
gaplinte_order order;
gaplinte_call call;
uint8_t bytes[1];

int main(void) {
#ifdef THROWN_AWAY
    CALL;
    return 0;
#else
    return CALL < 0;
#endif
}
