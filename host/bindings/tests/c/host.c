/* A host in C99. */
#include "host.h"
#include "sag.h"

int main(void)
{
    check_rows();
    give_strengths();
    pack_rows();
    check_floor_beams();
    check_sags();
    return 0;
}
