// Copies sectors of the target 1.0 to standard output (get), or standard input to them (put), with 64
// commands of 2 sectors under way, and a flush behind the last write. Each reply has to be the whole
// answer to a command that is under way; what isn't answered for 100 milliseconds is sent again. The
// frames go over UDP on the loopback interface from LINK to SHELF, two ports. With a LIFETIME, in
// milliseconds, it keeps the order that `aoe get` and `aoe put` keep: a command is sent when one of the
// 131,072 tags is free, which is two lifetimes after its last frame, and the flush, besides, when no frame of
// a write can arrive any more. With -DVNI=N each frame is that of a VXLAN of this number (RFC 7348).
#include <arpa/inet.h>
#include <endian.h>
#include <stdint.h>
#include <stdio.h>
#include <stdlib.h>
#include <string.h>
#include <sys/socket.h>
#include <sys/time.h>
#include <time.h>

// How many sectors a command has, and how many commands are under way: others by -DEACH=N and -DUNDER_WAY=N.
#ifndef EACH
#define EACH 2
#endif
#ifndef UNDER_WAY
#define UNDER_WAY 64
#endif
#ifdef VNI
enum { AHEAD = 8 };
#else
enum { AHEAD = 0, VNI = 0 };
#endif
enum { HEADER = 24, DATA = HEADER + 12, MOST = 9018, SECTOR = 512, ROOM = 131072 };
enum { READ = 0x24, WRITE = 0x34, FLUSH = 0xea };

struct command { uint32_t tag; uint64_t first; int under_way; };

static int link_socket;
static struct sockaddr_in shelf;
static struct command commands[UNDER_WAY];
static uint8_t *data, code;
static uint64_t start, count, sent, answered, again;
static double sent_at[ROOM], lifetime;

static void fail(const char *why) {
    fprintf(stderr, "transfer: %s\n", why);
    exit(1);
}

static double now(void) {
    struct timespec time;
    clock_gettime(CLOCK_MONOTONIC, &time);
    return time.tv_sec + time.tv_nsec * 1e-9;
}

static uint64_t sectors_of(const struct command *command) {
    if (code == FLUSH) return 0;
    return count - command->first < EACH ? count - command->first : EACH;
}

static void give(const struct command *command) {
    static const uint8_t header[] = {2, 0, 0, 0, 0, 1, 2, 0, 0, 0, 0, 10, 0x88, 0xa2, 0x10, 0, 0, 1, 0, 0};
    static uint8_t datagram[AHEAD + MOST];
    uint8_t *frame = datagram + AHEAD;
    uint32_t tag = htobe32(command->tag);
    uint64_t lba = htole64(start + command->first), sectors = sectors_of(command);
    size_t length = DATA;
    memset(frame, 0, 60);
    if (AHEAD) memcpy(datagram, (uint8_t[]){8, 0, 0, 0, VNI >> 16, VNI >> 8 & 0xff, VNI & 0xff, 0}, 8);
    memcpy(frame, header, sizeof header);
    memcpy(frame + 20, &tag, 4);
    frame[HEADER] = code == WRITE ? 0x41 : 0x40;
    frame[HEADER + 2] = sectors;
    frame[HEADER + 3] = code;
    if (code != FLUSH) memcpy(frame + HEADER + 4, &lba, 6);
    if (code == WRITE) {
        memcpy(frame + DATA, data + command->first * SECTOR, sectors * SECTOR);
        length += sectors * SECTOR;
    }
    if (length < 60) length = 60;
    if (code != FLUSH) sent_at[command->first / EACH % ROOM] = now();
    if (sendto(link_socket, datagram, AHEAD + length, 0, (struct sockaddr *)&shelf, sizeof shelf) < 0) fail("a command couldn't be sent");
}

static void wait_until(double time) {
    while (now() < time) nanosleep(&(struct timespec){.tv_nsec = 100000}, NULL);
}

// Begins the next command in a place that is free. The tag's low bits are the place.
static void begin(int place) {
    if (lifetime && code != FLUSH && sent >= ROOM) wait_until(sent_at[sent % ROOM] + 2 * lifetime);
    commands[place] = (struct command){.tag = sent * UNDER_WAY + place + 1, .first = sent * EACH, .under_way = 1};
    sent++;
    give(&commands[place]);
}

// The place of the command that a reply ends, or -1 where that one was answered before.
static int ends(const uint8_t *frame, size_t length) {
    uint32_t tag;
    if (length < DATA || (frame[14] & 0xfc) != 0x18 || frame[19] != 0) fail("no reply, or one with an error");
    memcpy(&tag, frame + 20, 4);
    tag = be32toh(tag);
    const struct command *command = &commands[(tag - 1) % UNDER_WAY];
    if (!command->under_way || command->tag != tag) return -1;
    if (frame[HEADER + 3] & 0x21) fail("a command that failed");
    if (code == READ && length < DATA + sectors_of(command) * SECTOR) fail("a short read");
    return (tag - 1) % UNDER_WAY;
}

static void run(uint64_t total) {
    static uint8_t datagram[AHEAD + MOST];
    sent = answered = 0;
    memset(commands, 0, sizeof commands);
    for (int place = 0; place < UNDER_WAY && sent < total; place++) begin(place);
    while (answered < total) {
        ssize_t length = recvfrom(link_socket, datagram, sizeof datagram, 0, NULL, NULL);
        if (length < 0) {
            for (int place = 0; place < UNDER_WAY; place++)
                if (commands[place].under_way) give(&commands[place]), again++;
            continue;
        }
        const uint8_t *frame = datagram + AHEAD;
        int place = ends(frame, length - AHEAD);
        if (place < 0) continue;
        struct command *command = &commands[place];
        if (code == READ) memcpy(data + command->first * SECTOR, frame + DATA, sectors_of(command) * SECTOR);
        command->under_way = 0;
        answered++;
        if (sent < total) begin(place);
    }
}

// Waits until a flush behind so many writes may be sent.
static void wait_for_order(uint64_t writes) {
    double least = 0, free = now();
    for (uint64_t i = 0; i < writes && i < ROOM; i++) {
        if (sent_at[i] + lifetime > least) least = sent_at[i] + lifetime;
        if (sent_at[i] < free) free = sent_at[i];
    }
    if (writes >= ROOM && free + 2 * lifetime > least) least = free + 2 * lifetime;
    wait_until(least);
}

int main(int argc, char **argv) {
    if (argc != 6 && argc != 7) fail("LINK SHELF get|put AT COUNT [LIFETIME]");
    struct sockaddr_in local = {.sin_family = AF_INET, .sin_port = htons(atoi(argv[1]))};
    struct timeval patience = {.tv_usec = 100000};
    local.sin_addr.s_addr = htonl(INADDR_LOOPBACK);
    shelf = local;
    shelf.sin_port = htons(atoi(argv[2]));
    link_socket = socket(AF_INET, SOCK_DGRAM, 0);
    setsockopt(link_socket, SOL_SOCKET, SO_RCVTIMEO, &patience, sizeof patience);
    if (bind(link_socket, (struct sockaddr *)&local, sizeof local) < 0) fail("the port is taken");
    start = strtoull(argv[4], NULL, 10);
    count = strtoull(argv[5], NULL, 10);
    data = malloc(count * SECTOR);
    int put = strcmp(argv[3], "put") == 0;
    if (put && fread(data, SECTOR, count, stdin) != count) fail("too few sectors");
    code = put ? WRITE : READ;
    if (argc == 7) lifetime = atof(argv[6]) / 1000;
    run((count + EACH - 1) / EACH);
    if (put && lifetime) wait_for_order(sent);
    code = FLUSH;
    if (put) run(1);
    if (!put) fwrite(data, SECTOR, count, stdout);
    if (again) fprintf(stderr, "transfer: %lu commands were sent again\n", (unsigned long)again);
    return 0;
}
