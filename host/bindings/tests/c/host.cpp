// A host in C++11.
#include "host.h"
#include "sag.h"

#include <cstddef>
#include <cstdint>
#include <type_traits>

static_assert(std::is_same<decltype(&lvl_check_row), decltype(&lvl_strengths)>::value
                  && std::is_same<decltype(&lvl_check_row), decltype(&lvl_pack_row)>::value
                  && std::is_same<decltype(&lvl_check_row), decltype(&lvl_check_floor_beam)>::value,
              "the entries that read one thing share one signature");
static_assert(std::is_same<decltype(lvl_check_sag), std::uint64_t(const std::uint8_t *, std::size_t, const std::uint8_t *,
                                                                  std::size_t, std::uint8_t *, std::size_t)>::value,
              "a sag comes between the row and the answer");

int main()
{
    check_rows();
    give_strengths();
    pack_rows();
    check_floor_beams();
    check_sags();
    return 0;
}
