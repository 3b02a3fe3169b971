// The plain loop that bench/sectors measures `aoe answer` beside: reads a frame, reads or writes
// the file in place, writes the reply. It checks nothing but what it needs so as not to overrun.
#include <fcntl.h>
#include <stdint.h>
#include <stdio.h>
#include <string.h>
#include <unistd.h>

enum { HEADER = 24, REGISTERS = 12, DATA = HEADER + REGISTERS, MOST = 9018, READ = 0x24, WRITE = 0x34, FLUSH = 0xea };

static uint8_t frame[2 + MOST];
static char ahead[65536];
static const uint8_t port[6] = {2, 0, 0, 0, 0, 1};

int main(int argc, char **argv) {
    int disk = argc == 2 ? open(argv[1], O_RDWR) : -1;
    if (disk < 0) return 5;
    setvbuf(stdin, ahead, _IOFBF, sizeof ahead);
    while (fread(frame, 1, 2, stdin) == 2) {
        size_t length = (size_t)frame[0] << 8 | frame[1];
        uint8_t *bytes = frame + 2, *registers = bytes + HEADER;
        if (length < DATA || length > MOST || fread(bytes, 1, length, stdin) != length) return 11;
        off_t at = 0;
        for (int place = 9; place >= 4; place--) at = at << 8 | registers[place];
        size_t data = (size_t)registers[2] * 512, reply = DATA;
        if (data > MOST - DATA) return 11;
        if (registers[3] == READ) {
            if (pread(disk, bytes + DATA, data, at * 512) != (ssize_t)data) return 5;
            reply += data;
        } else if (registers[3] == WRITE) {
            if (length < DATA + data || pwrite(disk, bytes + DATA, data, at * 512) != (ssize_t)data) return 5;
        } else if (registers[3] == FLUSH && fdatasync(disk) != 0) {
            return 5;
        }
        memcpy(bytes, bytes + 6, 6);
        memcpy(bytes + 6, port, 6);
        bytes[14] |= 0x08;
        registers[1] = 0, registers[2] = 0, registers[3] = 0x40;
        if (reply < 60) memset(bytes + reply, 0, 60 - reply), reply = 60;
        frame[0] = reply >> 8, frame[1] = reply & 0xff;
        if (write(1, frame, 2 + reply) != (ssize_t)(2 + reply)) return 4;
    }
    return 0;
}
