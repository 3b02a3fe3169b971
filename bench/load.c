// Sends one kind of AoE request to the target 1.0, so many of them under way at a time, and prints how
// many were answered in a second, and how many were sent again since no answer came for 100 milliseconds.
// Each reply has to be the whole answer to a request that is under way, and each sector of a read has to
// begin with its own number, as the writes leave it, or with zeros. Requests are spread over the disk, but
// for those to append, which write one sector behind the other. The frames go over UDP on the
// loopback interface from LINK to SHELF, two ports; where SHELF is -, they go over the interface LINK.
#include <arpa/inet.h>
#include <endian.h>
#include <net/if.h>
#include <netpacket/packet.h>
#include <stdint.h>
#include <stdio.h>
#include <stdlib.h>
#include <string.h>
#include <sys/socket.h>
#include <sys/time.h>
#include <time.h>

enum { HEADER = 24, REGISTERS = 12, DATA = HEADER + REGISTERS, MOST = 9018, SECTOR = 512, MOST_UNDER_WAY = 16 };
enum kind { QUERY, READ, WRITE, APPEND };

struct request { uint32_t tag; uint64_t lba; int under_way; };

struct load {
    int link;
    struct sockaddr_storage shelf;
    socklen_t shelf_length;
    uint8_t station[6];
    enum kind kind;
    uint64_t sectors, room, sent, answered, again;
    struct request requests[MOST_UNDER_WAY];
};

static double now(void) {
    struct timespec time;
    clock_gettime(CLOCK_MONOTONIC, &time);
    return time.tv_sec + time.tv_nsec * 1e-9;
}

static void fail(const char *why) {
    fprintf(stderr, "load: %s\n", why);
    exit(1);
}

// Lays out a request, and gives its length.
static size_t lay_out(const struct load *load, const struct request *request, uint8_t *frame) {
    static const uint8_t header[] = {2, 0, 0, 0, 0, 10, 0x88, 0xa2, 0x10, 0, 0, 1, 0};
    uint32_t tag = htobe32(request->tag);
    uint64_t lba = htole64(request->lba);
    memset(frame, 0, DATA);
    memcpy(frame, load->station, 6);
    memcpy(frame + 6, header, sizeof header);
    memcpy(frame + 20, &tag, 4);
    if (load->kind == QUERY) return frame[19] = 1, HEADER + 8;
    memcpy(frame + HEADER + 4, &lba, 6);
    frame[HEADER] = load->kind == READ ? 0x40 : 0x41;
    frame[HEADER + 2] = load->sectors;
    frame[HEADER + 3] = load->kind == READ ? 0x24 : 0x34;
    if (load->kind == READ) return DATA;
    for (uint64_t sector = 0; sector < load->sectors; sector++) {
        lba = htole64(request->lba + sector);
        memcpy(frame + DATA + sector * SECTOR, &lba, sizeof lba);
    }
    return DATA + load->sectors * SECTOR;
}

static void give(const struct load *load, const struct request *request) {
    static uint8_t frame[MOST];
    size_t length = lay_out(load, request, frame);
    if (sendto(load->link, frame, length, 0, (const struct sockaddr *)&load->shelf, load->shelf_length) < 0)
        fail("a request couldn't be sent");
}

// Begins the next request in a place that is free. The tag's low bits are the place.
static void begin(struct load *load, int place) {
    struct request *request = &load->requests[place];
    request->tag = load->sent * MOST_UNDER_WAY + place;
    uint64_t stride = load->kind == APPEND ? load->sectors : 7919;
    request->lba = load->kind == QUERY ? 0 : load->sent * stride % (load->room - load->sectors);
    request->under_way = 1;
    load->sent++;
    give(load, request);
}

static void check_sectors(const struct load *load, const struct request *request, const uint8_t *data) {
    for (uint64_t sector = 0; sector < load->sectors; sector++) {
        uint64_t begins;
        memcpy(&begins, data + sector * SECTOR, sizeof begins);
        if (begins != 0 && le64toh(begins) != request->lba + sector) fail("a read gave another sector");
    }
}

// The place of the request that a reply ends, or -1 where that one was answered before.
static int ends(const struct load *load, const uint8_t *frame, size_t length) {
    uint32_t tag;
    if (length < (load->kind == QUERY ? HEADER + 8 : DATA) || (frame[14] & 0x0c) != 0x08) fail("no reply, or one with an error");
    memcpy(&tag, frame + 20, 4);
    tag = be32toh(tag);
    const struct request *request = &load->requests[tag % MOST_UNDER_WAY];
    if (!request->under_way || request->tag != tag) return -1;
    if (frame[19] != (load->kind == QUERY)) fail("a reply to another command");
    if (load->kind != QUERY && frame[HEADER + 3] != 0x40) fail("a command that failed");
    if (load->kind == READ && length != DATA + load->sectors * SECTOR) fail("a read of another length");
    if (load->kind == READ) check_sectors(load, request, frame + DATA);
    return tag % MOST_UNDER_WAY;
}

// Sends so many requests, and returns when all are answered.
static void run(struct load *load, uint64_t count, int under_way) {
    static uint8_t frame[MOST];
    uint64_t last = load->sent + count;
    load->answered = load->again = 0;
    for (int place = 0; place < under_way && load->sent < last; place++) begin(load, place);
    while (load->answered < count) {
        ssize_t length = recvfrom(load->link, frame, sizeof frame, 0, NULL, NULL);
        if (length < 0) {
            for (int place = 0; place < under_way; place++)
                if (load->requests[place].under_way) give(load, &load->requests[place]), load->again++;
            continue;
        }
        int place = ends(load, frame, length);
        if (place < 0) continue;
        memcpy(load->station, frame + 6, 6);
        load->requests[place].under_way = 0;
        load->answered++;
        if (load->sent < last) begin(load, place);
    }
}

static struct sockaddr_in loopback(const char *number) {
    struct sockaddr_in address = {.sin_family = AF_INET, .sin_port = htons(atoi(number))};
    address.sin_addr.s_addr = htonl(INADDR_LOOPBACK);
    return address;
}

// Opens the link between two UDP ports, or over an interface.
static void open_link(struct load *load, const char *link, const char *shelf) {
    struct timeval patience = {0, 100000};
    int room = 4 << 20, bound;
    if (strcmp(shelf, "-") == 0) {
        struct sockaddr_ll face = {.sll_family = AF_PACKET, .sll_protocol = htons(0x88a2), .sll_ifindex = if_nametoindex(link)};
        load->link = socket(AF_PACKET, SOCK_RAW, htons(0x88a2));
        memcpy(&load->shelf, &face, load->shelf_length = sizeof face);
        bound = bind(load->link, (struct sockaddr *)&face, sizeof face);
    } else {
        struct sockaddr_in local = loopback(link), peer = loopback(shelf);
        load->link = socket(AF_INET, SOCK_DGRAM, 0);
        memcpy(&load->shelf, &peer, load->shelf_length = sizeof peer);
        bound = bind(load->link, (struct sockaddr *)&local, sizeof local);
    }
    if (bound != 0) fail("the link can't be opened");
    setsockopt(load->link, SOL_SOCKET, SO_RCVTIMEO, &patience, sizeof patience);
    setsockopt(load->link, SOL_SOCKET, SO_RCVBUF, &room, sizeof room);
}

static enum kind kind_of(const char *name) {
    return strcmp(name, "query") == 0 ? QUERY : strcmp(name, "read") == 0 ? READ : strcmp(name, "append") == 0 ? APPEND : WRITE;
}

int main(int argc, char **argv) {
    if (argc != 8) {
        fprintf(stderr, "usage: load LINK SHELF query|read|write|append SECTORS DISK_SECTORS UNDER_WAY COUNT\n");
        return 1;
    }
    struct load load = {.station = {255, 255, 255, 255, 255, 255}};
    int under_way = atoi(argv[6]);
    if (under_way < 1 || under_way > MOST_UNDER_WAY) fail("1 to 16 requests may be under way");
    open_link(&load, argv[1], argv[2]);
    // A first query to all stations, so that the shelf is there when the clock runs, and is known.
    run(&load, 1, 1);
    load.kind = kind_of(argv[3]), load.sectors = atoi(argv[4]), load.room = atoi(argv[5]);
    double begun = now();
    run(&load, atoll(argv[7]), under_way);
    printf("%.0f %llu\n", load.answered / (now() - begun), (unsigned long long)load.again);
    return 0;
}
