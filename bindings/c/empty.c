/* What is empty, for callers that see no initializers of C: what a wrapper in another language begins with. */
#include "influxdb_line_protocol.h"

const lp_text lp_no_text = LP_NO_TEXT;
const lp_view lp_no_view = LP_NO_VIEW;
const lp_line lp_empty_line = LP_EMPTY_LINE;
const lp_row lp_empty_row = LP_EMPTY_ROW;
const lp_lines lp_no_lines = LP_NO_LINES;
const lp_cuts lp_no_cuts = LP_NO_CUTS;
const lp_part lp_empty_part = LP_EMPTY_PART;
