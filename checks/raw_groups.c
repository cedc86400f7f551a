/* The calls that appending a group to the queue on flash costs, and nothing else: two writes, a sync, a write and a sync on a file of
 * zeros, for each line of input, which is answered when they are done. A checkpoint makes them for each eight changed pages. Usage:
 * raw_groups GROUPS COUNT, for a queue of so many slots, and so many groups a line */
#include <fcntl.h>
#include <stdlib.h>
#include <string.h>
#include <unistd.h>

enum { STRIDE = 33280, ROOM = 32896 };

static char zeros[STRIDE], unit[8 + ROOM];

static int make(const char *name, long slots)
{
    int file = open(name, O_RDWR | O_CREAT | O_TRUNC, 0666);
    if (file < 0) return -1;
    for (long slot = 0; slot < slots; slot++)
        if (write(file, zeros, STRIDE) != STRIDE) return -1;
    return fsync(file) == 0 ? file : -1;
}

static int append(int file, long number, long slots)
{
    char gate = (char)0xa5;
    off_t at = (off_t)STRIDE * (number % slots), next = (off_t)STRIDE * ((number + 1) % slots);
    if (pwrite(file, unit, sizeof unit, at + 1) != sizeof unit) return -1;
    if (pwrite(file, zeros, 1, next) != 1) return -1;
    if (fdatasync(file) != 0) return -1;
    if (pwrite(file, &gate, 1, at) != 1) return -1;
    return fdatasync(file);
}

int main(int argc, char **argv)
{
    if (argc != 3) return 2;
    long slots = atol(argv[1]), count = atol(argv[2]), number = 0;
    int file = make("raw.flash", slots);
    char line;
    if (file < 0) return 1;
    memset(unit, 7, sizeof unit);
    if (write(1, "start\n", 6) != 6) return 1;
    while (read(0, &line, 1) == 1) {
        if (line != '\n') continue;
        for (long i = 0; i < count; i++)
            if (append(file, number++, slots) != 0) return 1;
        if (write(1, "done\n", 5) != 5) return 1;
    }
    return 0;
}
