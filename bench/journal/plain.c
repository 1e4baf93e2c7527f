/* Writes and syncs what COUNT appends of SIZE bytes write and sync in a journal at PATH, in the same order,
   and prints the nanoseconds that this took. Its words are SIZE COUNT PATH. */
#include <fcntl.h>
#include <stdint.h>
#include <stdio.h>
#include <stdlib.h>
#include <string.h>
#include <time.h>
#include <unistd.h>

static void write_at(int file, const void *bytes, size_t size, off_t at) {
    if (pwrite(file, bytes, size, at) != (ssize_t)size || fdatasync(file) != 0)
        exit(1);
}

int main(int words, char **word) {
    static const unsigned char body[9] = {1};
    static const unsigned char open_gate = 1;
    if (words != 4)
        return 1;
    const uint32_t size = atoi(word[1]);
    const int count = atoi(word[2]);
    unsigned char *record = calloc(4 + size + 1, 1);
    int file = open(word[3], O_RDWR | O_CREAT | O_EXCL, 0666);
    if (record == NULL || file < 0)
        return 1;
    memcpy(record, &size, 4);
    memset(record + 4, 7, size);
    write_at(file, body, sizeof body, 8);
    write_at(file, "ANNOBOOK", 8, 0);
    struct timespec start, end;
    clock_gettime(CLOCK_MONOTONIC, &start);
    off_t gate = 16;
    for (int i = 0; i < count; i++) {
        write_at(file, record, 4 + size + 1, gate + 1);
        write_at(file, &open_gate, 1, gate);
        gate += 4 + size + 1;
    }
    clock_gettime(CLOCK_MONOTONIC, &end);
    printf("%lld\n", (end.tv_sec - start.tv_sec) * 1000000000LL + (end.tv_nsec - start.tv_nsec));
    return 0;
}
