// The plain bridge that bench/nbd measures `aoe nbd` beside: a server of NBD at a Unix socket that asks the target 1.0
// over UDP on the loopback interface, in frames of up to 17 sectors, with up to 64 commands and 136 sectors under way.
// It keeps no order: overlapping requests may pass each other, and a flush rests for nothing. What isn't answered for
// 100 milliseconds is sent again. It serves one client after another, and checks nothing but what it needs. It ends by
// a signal.
#include <arpa/inet.h>
#include <endian.h>
#include <poll.h>
#include <signal.h>
#include <stdint.h>
#include <stdio.h>
#include <stdlib.h>
#include <string.h>
#include <sys/socket.h>
#include <sys/uio.h>
#include <sys/un.h>
#include <time.h>
#include <unistd.h>

enum { HEADER = 24, DATA = HEADER + 12, MOST = 9018, SECTOR = 512, EACH = 17 };
enum { UNDER_WAY = 64, FLYING = 136, OPEN = 128, INPUT = 65536, HEAD = 28 };
enum { READ_EXT = 0x24, WRITE_EXT = 0x34, FLUSH_EXT = 0xea };
enum { READ, WRITE, DISC, FLUSH };

struct request { int is_open; uint16_t type; uint64_t handle, at; uint32_t length, sent, left; uint8_t *data; };
struct command { int is_busy, request; uint32_t tag, from, length; double sent_at; };

static int link_socket, client;
static struct sockaddr_in shelf;
static uint64_t size;
static struct request requests[OPEN];
static struct command commands[UNDER_WAY];
static int queue[OPEN], first, queued, opened, busy, flying;
static uint32_t tags;
static uint8_t input[INPUT];
static size_t begins, ends, missing;
static int writing;

static void fail(const char *why) {
    fprintf(stderr, "bridge: %s\n", why);
    exit(1);
}

static double now(void) {
    struct timespec time;
    clock_gettime(CLOCK_MONOTONIC, &time);
    return time.tv_sec + time.tv_nsec * 1e-9;
}

static int sectors_of(const struct command *command) { return command->length / SECTOR; }

// Sends a command, or sends it again.
static void give(struct command *command) {
    static const uint8_t header[] = {2, 0, 0, 0, 0, 1, 2, 0, 0, 0, 0, 11, 0x88, 0xa2, 0x10, 0, 0, 1, 0, 0};
    static uint8_t frame[MOST];
    const struct request *request = &requests[command->request];
    uint32_t tag = htobe32(command->tag);
    uint64_t lba = htole64((request->at + command->from) / SECTOR);
    size_t length = DATA;
    memset(frame, 0, 60);
    memcpy(frame, header, sizeof header);
    memcpy(frame + 20, &tag, 4);
    frame[HEADER] = request->type == WRITE ? 0x41 : 0x40;
    frame[HEADER + 2] = sectors_of(command);
    frame[HEADER + 3] = request->type == FLUSH ? FLUSH_EXT : request->type == WRITE ? WRITE_EXT : READ_EXT;
    if (request->type != FLUSH) memcpy(frame + HEADER + 4, &lba, 6);
    if (request->type == WRITE) {
        memcpy(frame + DATA, request->data + command->from, command->length);
        length += command->length;
    }
    command->sent_at = now();
    sendto(link_socket, frame, length < 60 ? 60 : length, 0, (struct sockaddr *)&shelf, sizeof shelf);
}

// Begins commands of the requests in their order while there is room. The tag's low bits are the place.
static void begin(void) {
    for (int place = 0; queued && place < UNDER_WAY && flying < FLYING; place++) {
        if (commands[place].is_busy) continue;
        struct request *request = &requests[queue[first]];
        uint32_t rest = request->length - request->sent;
        uint32_t length = rest < EACH * SECTOR ? rest : EACH * SECTOR;
        commands[place] = (struct command){1, queue[first], tags++ * UNDER_WAY + place + 1, request->sent, length, 0};
        busy++;
        flying += sectors_of(&commands[place]);
        request->sent += length;
        if (request->sent == request->length) first = (first + 1) % OPEN, queued--;
        give(&commands[place]);
    }
}

static void send_all(struct iovec *parts, int count) {
    while (count) {
        ssize_t sent = writev(client, parts, count);
        if (sent < 0) return;
        while (count && (size_t)sent >= parts->iov_len) sent -= parts->iov_len, parts++, count--;
        if (count) parts->iov_base = (uint8_t *)parts->iov_base + sent, parts->iov_len -= sent;
    }
}

// Answers a request of which every command is done.
static void answer(struct request *request) {
    uint32_t head[4] = {htobe32(0x67446698), 0};
    memcpy(head + 2, &request->handle, 8);
    struct iovec parts[2] = {{head, sizeof head}, {request->data, request->length}};
    send_all(parts, request->type == READ ? 2 : 1);
    free(request->data);
    request->is_open = 0;
    opened--;
}

// Takes a reply.
static void hear(void) {
    static uint8_t frame[MOST];
    ssize_t length = recv(link_socket, frame, sizeof frame, MSG_DONTWAIT);
    uint32_t tag;
    if (length < DATA || (frame[14] & 0xfc) != 0x18 || frame[19]) return;
    memcpy(&tag, frame + 20, 4);
    tag = be32toh(tag);
    struct command *command = &commands[(tag - 1) % UNDER_WAY];
    if (!command->is_busy || command->tag != tag) return;
    if (frame[HEADER + 3] & 0x21) fail("a command that failed");
    struct request *request = &requests[command->request];
    if (request->type == READ) memcpy(request->data + command->from, frame + DATA, command->length);
    command->is_busy = 0;
    busy--;
    flying -= sectors_of(command);
    request->left -= command->length;
    if (!request->left) answer(request);
}

static void say_again(void) {
    double due = now() - 0.1;
    for (int place = 0; place < UNDER_WAY; place++)
        if (commands[place].is_busy && commands[place].sent_at < due) give(&commands[place]);
}

static void push(int place) {
    queue[(first + queued++) % OPEN] = place;
}

// Takes the head of a request: whether the client goes on.
static int take_head(const uint8_t *head) {
    uint16_t type;
    struct request request = {.is_open = 1};
    memcpy(&type, head + 6, 2);
    memcpy(&request.handle, head + 8, 8);
    memcpy(&request.at, head + 16, 8);
    memcpy(&request.length, head + 24, 4);
    request.type = be16toh(type), request.at = be64toh(request.at), request.length = be32toh(request.length);
    if (request.type == DISC) return 0;
    // A flush counts as one byte.
    if (request.type == FLUSH) request.length = 1;
    request.left = request.length;
    request.data = malloc(request.length);
    for (writing = 0; requests[writing].is_open; writing++);
    requests[writing] = request;
    opened++;
    if (request.type == WRITE) missing = request.length;
    else push(writing);
    return 1;
}

// Takes what came of the client: whether it goes on.
static int take(void) {
    while (ends - begins > 0) {
        size_t length = ends - begins;
        if (missing) {
            if (length > missing) length = missing;
            struct request *request = &requests[writing];
            memcpy(request->data + request->length - missing, input + begins, length);
            begins += length, missing -= length;
            if (!missing) push(writing);
        } else if (length < HEAD || opened == OPEN) {
            break;
        } else {
            begins += HEAD;
            if (!take_head(input + begins - HEAD)) return 0;
        }
    }
    memmove(input, input + begins, ends - begins);
    ends -= begins, begins = 0;
    return 1;
}

static int fill(void) {
    ssize_t length = recv(client, input + ends, INPUT - ends, MSG_DONTWAIT);
    if (length > 0) ends += length;
    return length != 0;
}

// So many bytes of the handshake.
static int need(void *bytes, size_t length) {
    return recv(client, bytes, length, MSG_WAITALL) == (ssize_t)length;
}

static void put(const void *bytes, size_t length) {
    send_all(&(struct iovec){(void *)bytes, length}, 1);
}

static void reply(uint32_t option, uint32_t type, const void *bytes, uint32_t length) {
    uint64_t magic = htobe64(0x3e889045565a9);
    uint32_t rest[3] = {htobe32(option), htobe32(type), htobe32(length)};
    put(&magic, 8), put(rest, 12), put(bytes, length);
}

// Shakes hands: whether the client is through.
static int shake(void) {
    uint8_t flags[4], head[16], bytes[8192], export[12] = {0};
    uint64_t total = htobe64(size);
    memcpy(export + 2, &total, 8);
    export[11] = 0x0d;
    put("NBDMAGICIHAVEOPT\0\3", 18);
    if (!need(flags, 4)) return 0;
    for (;;) {
        uint32_t option, length;
        if (!need(head, 16)) return 0;
        memcpy(&option, head + 8, 4), memcpy(&length, head + 12, 4);
        option = be32toh(option), length = be32toh(length);
        if (length > sizeof bytes || (length && !need(bytes, length)) || option == 2) return 0;
        if (option == 1) return put(export + 2, 10), 1;
        if (option != 6 && option != 7) {
            reply(option, 0x80000001, NULL, 0);
            continue;
        }
        reply(option, 3, export, 12);
        reply(option, 3, "\0\3\0\0\2\0\0\0\x10\0\1\0\0", 14);
        reply(option, 1, NULL, 0);
        if (option == 7) return 1;
    }
}

static void serve(void) {
    int goes_on = shake();
    begins = ends = missing = 0;
    while (goes_on || busy || queued) {
        struct pollfd both[2] = {{link_socket, POLLIN, 0}, {client, POLLIN, 0}};
        int is_read = goes_on && ends < INPUT && opened < OPEN;
        poll(both, 1 + is_read, 100);
        for (int i = 0; i < 64 && busy; i++) hear();
        if (is_read && both[1].revents) goes_on = fill();
        if (goes_on) goes_on = take();
        begin();
        say_again();
    }
    if (missing) requests[writing].is_open = 0, opened--;
}

int main(int argc, char **argv) {
    signal(SIGPIPE, SIG_IGN);
    if (argc != 5) fail("LINK SHELF SOCKET SECTORS");
    struct sockaddr_in local = {.sin_family = AF_INET, .sin_port = htons(atoi(argv[1]))};
    struct sockaddr_un path = {.sun_family = AF_UNIX};
    local.sin_addr.s_addr = htonl(INADDR_LOOPBACK);
    shelf = local;
    shelf.sin_port = htons(atoi(argv[2]));
    strncpy(path.sun_path, argv[3], sizeof path.sun_path - 1);
    size = strtoull(argv[4], NULL, 10) * SECTOR;
    link_socket = socket(AF_INET, SOCK_DGRAM, 0);
    if (bind(link_socket, (struct sockaddr *)&local, sizeof local) < 0) fail("the port is taken");
    int listener = socket(AF_UNIX, SOCK_STREAM, 0);
    if (bind(listener, (struct sockaddr *)&path, sizeof path) < 0 || listen(listener, 16) < 0) fail("the socket is taken");
    for (;;) {
        client = accept(listener, NULL, NULL);
        if (client < 0) fail("no client");
        serve();
        close(client);
    }
}
