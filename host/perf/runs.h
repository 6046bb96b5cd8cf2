/* The comparisons, a file each. Each answers how many of its rows are above their limits. */
#ifndef LOGODWEN_RUNS_H
#define LOGODWEN_RUNS_H

int perf_fcs_runs(void);
int perf_image_runs(void);
int perf_flash_runs(void);
int perf_packet_runs(void);
int perf_memory_runs(void);
int perf_group_runs(void);
int perf_border_runs(void);
int perf_capture_runs(void);
int perf_salvage_runs(void);

#endif
