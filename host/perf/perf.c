/* make perf: proved functions and the calls at the C border against plain C, in one table with its limits. */
#include "runs.h"

int main(void) {
    int over = perf_fcs_runs() + perf_image_runs() + perf_flash_runs() + perf_packet_runs() + perf_memory_runs() + perf_group_runs();
    return over + perf_border_runs() + perf_capture_runs() + perf_salvage_runs() == 0 ? 0 : 1;
}
