// How often THREADS threads read SIZE bytes of one file a second, each at uniformly drawn places, which are multiples of SIZE, by pread.
//   pread FILE THREADS SECONDS [SIZE]     a page of 64 KiB without SIZE
#define _GNU_SOURCE
#include <fcntl.h>
#include <pthread.h>
#include <stdint.h>
#include <stdio.h>
#include <stdlib.h>
#include <sys/stat.h>
#include <time.h>
#include <unistd.h>
static int fd; static uint64_t size = 65536, pieces; static double seconds, start; static uint64_t counts[64];
static double now(void) { struct timespec t; clock_gettime(CLOCK_MONOTONIC, &t); return t.tv_sec + t.tv_nsec * 1e-9; }
static void *work(void *arg) {
    long id = (long)arg; char *piece = malloc(size); uint64_t rng = 88172645463325252ull + id * 7919, n = 0;
    while ((n & 63) || now() - start < seconds) {
        rng ^= rng << 13; rng ^= rng >> 7; rng ^= rng << 17;
        if (pread(fd, piece, size, (rng >> 11) % pieces * size) != (ssize_t)size) { perror("pread"); exit(1); }
        n++;
    }
    counts[id] = n; return 0;
}
int main(int argc, char **argv) {
    int threads = atoi(argv[2]); seconds = atof(argv[3]); fd = open(argv[1], O_RDONLY); struct stat s; fstat(fd, &s);
    if (argc > 4) size = atol(argv[4]);
    pieces = s.st_size / size;
    pthread_t t[64]; start = now(); uint64_t all = 0;
    for (long i = 0; i < threads; i++) pthread_create(&t[i], 0, work, (void *)i);
    for (int i = 0; i < threads; i++) { pthread_join(t[i], 0); all += counts[i]; }
    printf("%.0f\n", all / (now() - start));
}
