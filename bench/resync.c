// Makes the calls of a resync: reads 64 sectors of one file, writes them to another and syncs that, again and
// again to the end. resync FROM TO
#include <fcntl.h>
#include <stdlib.h>
#include <sys/stat.h>
#include <unistd.h>

int main(int count, char **words) {
    static unsigned char piece[64 * 512];
    struct stat from;
    int one, two;
    if (count != 3 || (one = open(words[1], O_RDWR)) < 0 || (two = open(words[2], O_RDWR)) < 0 || fstat(one, &from))
        return 1;
    for (off_t at = 0; at < from.st_size; at += sizeof piece) {
        ssize_t length = pread(one, piece, sizeof piece, at);
        if (length <= 0 || pwrite(two, piece, length, at) != length || fdatasync(two))
            return 1;
    }
    return 0;
}
