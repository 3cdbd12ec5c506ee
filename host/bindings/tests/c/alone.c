/* The header with nothing before it. */
#include "lvl_addin.h"

typedef char sizes_agree[9 * LVL_CELLS == LVL_ROW_BYTES && (35 * LVL_CELLS + 7) / 8 == LVL_PACKED_BYTES_MAX && (LVL_CELLS + 7) / 8 == LVL_PACKED_BYTES_MIN ? 1 : -1];
typedef char beam_sizes_agree[9 * LVL_BEAM_CELLS == LVL_BEAM_BYTES && 6 * 8 == LVL_BEAM_ANSWER_BYTES ? 1 : -1];
typedef char sag_sizes_agree[9 * LVL_SAG_CELLS == LVL_SAG_BYTES && 7 * 8 == LVL_SAG_ANSWER_BYTES ? 1 : -1];
