/* The calls that one durable set costs, and nothing else: two writes, a sync, a write and a sync on a log file, and the
 * write of a reply, for each line of input. The file is made as the program makes it. Usage: raw_calls COUNT, for at most
 * so many lines */
#include <fcntl.h>
#include <stdio.h>
#include <stdlib.h>
#include <string.h>
#include <unistd.h>

int main(int argc, char **argv)
{
    static char zeros[65536], input[65536], content[512];
    long count = argc > 1 ? atol(argv[1]) : 1000;
    long slots = count + 2;
    int log = open("raw.log", O_RDWR | O_CREAT | O_TRUNC, 0666);
    if (log < 0) return 1;
    for (long left = 1536 + 512 * slots; left > 0;) {
        long n = left < (long)sizeof zeros ? left : (long)sizeof zeros;
        if (write(log, zeros, n) != n) return 1;
        left -= n;
    }
    if (fsync(log) != 0) return 1;
    memset(content, 7, sizeof content);
    if (write(1, "start\n", 6) != 6) return 1;
    long left = 0;
    for (long i = 0; i < count; i++, left--) {
        while (left == 0) {
            long n = read(0, input, sizeof input);
            if (n <= 0) return 0;
            for (long at = 0; at < n; at++) left += input[at] == '\n';
        }
        char line[32], gate = (char)0xa5;
        off_t at = 1536 + 512 * i;
        if (pwrite(log, content, 511, at + 1) != 511) return 1;
        if (pwrite(log, zeros, 1, at + 512) != 1) return 1;
        if (fdatasync(log) != 0) return 1;
        if (pwrite(log, &gate, 1, at) != 1) return 1;
        if (fdatasync(log) != 0) return 1;
        int n = sprintf(line, "committed %ld\n", i + 1);
        if (write(1, line, n) != n) return 1;
    }
    return 0;
}
