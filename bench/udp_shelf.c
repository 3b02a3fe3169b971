// The plain shelf that bench/datagrams and bench/wire measure `aoe serve` beside: one Ethernet frame per UDP
// datagram, which it takes by recvfrom, reads or writes the file in place, and answers by sendto; behind
// VXLAN's header of the network VNI, where that is given, which it takes as it came; or one per read and
// write of a tap file. It serves the target 1.0, and checks nothing but what it needs so as not to overrun.
// It ends when it heard nothing for IDLE times 10 milliseconds.
#include <arpa/inet.h>
#include <fcntl.h>
#include <poll.h>
#include <stdint.h>
#include <stdio.h>
#include <stdlib.h>
#include <string.h>
#include <sys/socket.h>
#include <sys/time.h>
#include <unistd.h>

enum { HEADER = 24, REGISTERS = 12, DATA = HEADER + REGISTERS, MOST = 9018, SECTOR = 512, MOST_SECTORS = 17 };
enum { RESPONSE = 0x08, ATA = 0, QUERY_CONFIG = 1 };
enum { READ = 0x20, READ_EXT = 0x24, WRITE = 0x30, WRITE_EXT = 0x34, FLUSH = 0xE7, FLUSH_EXT = 0xEA, IDENTIFY = 0xEC };

static const uint8_t port[6] = {2, 0, 0, 0, 0, 1};

static void put_word(uint8_t *page, int word, unsigned value) {
    page[2 * word] = value & 0xff, page[2 * word + 1] = value >> 8 & 0xff;
}

static void identify(uint8_t *page, uint64_t sectors) {
    memset(page, 0, SECTOR);
    put_word(page, 49, 0x0200);
    put_word(page, 83, 0x7400);
    put_word(page, 86, 0x3400);
    uint64_t old = sectors < 0x0fffffff ? sectors : 0x0fffffff;
    for (int word = 0; word < 2; word++) put_word(page, 60 + word, old >> 16 * word & 0xffff);
    for (int word = 0; word < 4; word++) put_word(page, 100 + word, sectors >> 16 * word & 0xffff);
}

// Does an ATA command, and gives the length of its reply.
static size_t command(int disk, uint8_t *frame, size_t length) {
    uint8_t *registers = frame + HEADER, *data = frame + DATA;
    size_t count = (size_t)registers[2] * SECTOR, reply = DATA;
    off_t at = 0;
    for (int place = 9; place >= 4; place--) at = at << 8 | registers[place];
    if (count > MOST - DATA) count = MOST - DATA;
    ssize_t done = 0, wanted = 0;
    switch (registers[3]) {
    case READ: case READ_EXT: done = pread(disk, data, wanted = count, at * SECTOR), reply += count; break;
    case WRITE: case WRITE_EXT:
        if (length >= DATA + count) done = pwrite(disk, data, wanted = count, at * SECTOR);
        break;
    case FLUSH: case FLUSH_EXT: done = fdatasync(disk); break;
    case IDENTIFY: identify(data, lseek(disk, 0, SEEK_END) / SECTOR), reply += SECTOR; break;
    }
    registers[1] = done == wanted ? 0 : 0x04;
    registers[3] = done == wanted ? 0x40 : 0x41;
    registers[2] = 0;
    return reply;
}

static size_t config(uint8_t *arguments) {
    static const uint8_t says[] = {0, 16, 0, 1, MOST_SECTORS, 0x10, 0, 0};
    memcpy(arguments, says, sizeof says);
    return HEADER + sizeof says;
}

// Makes the frame its reply, and gives that one's length, or 0 where there is none.
static size_t answer(int disk, uint8_t *frame, size_t length) {
    static const uint8_t type[] = {0x88, 0xa2};
    if (length < HEADER || memcmp(frame + 12, type, sizeof type) != 0 || frame[14] & RESPONSE) return 0;
    size_t reply = 0;
    if (frame[19] == ATA && length >= DATA) reply = command(disk, frame, length);
    if (frame[19] == QUERY_CONFIG && length >= HEADER + 8) reply = config(frame + HEADER);
    if (reply == 0) return 0;
    memcpy(frame, frame + 6, 6);
    memcpy(frame + 6, port, 6);
    frame[14] = 0x10 | RESPONSE, frame[15] = 0;
    frame[16] = 0, frame[17] = 1, frame[18] = 0;
    if (reply < 60) memset(frame + reply, 0, 60 - reply), reply = 60;
    return reply;
}

static struct sockaddr_in address(const char *ip, const char *number) {
    struct sockaddr_in address = {.sin_family = AF_INET, .sin_port = htons(atoi(number))};
    inet_pton(AF_INET, ip, &address.sin_addr);
    return address;
}

// Answers each frame behind its head of so many bytes, which is written once and stays.
static void serve(int disk, int link, const struct sockaddr_in *peer, uint8_t *head, size_t size, int idle) {
    uint8_t *frame = head + size;
    struct pollfd file = {.fd = link, .events = POLLIN};
    for (int quiet = 0; quiet < idle;) {
        ssize_t length = peer ? recvfrom(link, head, size + MOST, 0, NULL, NULL) : read(link, head, size + MOST);
        if (length < 0 && !peer && poll(&file, 1, 10) > 0) continue;
        quiet = length < 0 ? quiet + 1 : 0;
        size_t reply = length < (ssize_t)size ? 0 : answer(disk, frame, length - size);
        if (reply != 0 && peer) sendto(link, head, size + reply, 0, (const struct sockaddr *)peer, sizeof *peer);
        if (reply != 0 && !peer && write(link, head, size + reply) < 0) perror("udp_shelf");
    }
}

int main(int argc, char **argv) {
    if (argc != 4 && argc != 5 && argc != 8)
        return fprintf(stderr, "usage: udp_shelf DISK (TAP | LOCAL_PORT PEER_PORT) IDLE [VNI LOCAL_IP PEER_IP]\n"), 1;
    static uint8_t room[10 + MOST + SECTOR];
    int disk = open(argv[1], O_RDWR);
    if (disk < 0) return perror("udp_shelf"), 5;
    if (argc == 4) {
        int tap = open(argv[2], O_RDWR | O_NONBLOCK);
        if (tap < 0) return perror("udp_shelf"), 5;
        return serve(disk, tap, NULL, room, 10, atoi(argv[3])), 0;
    }
    struct sockaddr_in local = address(argc == 8 ? argv[6] : "127.0.0.1", argv[2]), peer = address(argc == 8 ? argv[7] : "127.0.0.1", argv[3]);
    struct timeval silence = {0, 10000};
    int link = socket(AF_INET, SOCK_DGRAM, 0);
    setsockopt(link, SOL_SOCKET, SO_RCVTIMEO, &silence, sizeof silence);
    if (bind(link, (struct sockaddr *)&local, sizeof local) != 0) return perror("udp_shelf"), 5;
    serve(disk, link, &peer, room, argc == 8 ? 8 : 0, atoi(argv[4]));
    return 0;
}
