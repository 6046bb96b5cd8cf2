/* The model in the place of the archive's salvage, with a fault or with none: one that refuses what it should take, and one that stops in the middle
   of its work, so that it can be interrupted, or its dump cut short. */
#define _POSIX_C_SOURCE 200809L
#include "logodwen.h"

#include "../model/model.h"

#include <signal.h>
#include <stdio.h>
#include <unistd.h>

#ifndef FAULT
#define FAULT 0
#endif

enum { NO_FAULT, REFUSES, STOPS };

static volatile sig_atomic_t goes_on;

static void go_on(int number) { goes_on = number; }

/* Leaves something half done, and waits for a signal: SIGUSR1 has it go on. */
static void stop(uint8_t *second) {
    enum { SECONDS = 60 };
    second[0] = 0;
    signal(SIGUSR1, go_on);
    fprintf(stderr, "stopped\n");
    for (int i = 0; i < SECONDS && goes_on == 0; i++)
        sleep(1); /* which a signal that came before it does not end */
    second[0] = 0xFF;
}

uint64_t logodwen_salvage(const uint8_t *first, size_t first_len, uint8_t *second, size_t second_len) {
    if (FAULT == REFUSES)
        return LOGODWEN_REFUSED_FLASH_SIZE;
    if (FAULT == STOPS)
        stop(second);
    return model_salvage(first, first_len, second, second_len);
}
