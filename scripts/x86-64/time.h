#pragma once
struct timespec {
    long tv_sec, tv_nsec;
};
int clock_gettime(int, struct timespec *);
#define CLOCK_MONOTONIC 1
