// A plain learning switch over the stream of `aoe switch`, with the same words: 256 stations in each VLAN, a frame
// copied once for each port that it goes to, and one write for each.
#include <stdint.h>
#include <stdio.h>
#include <stdlib.h>
#include <string.h>
#include <unistd.h>

enum { PORTS = 16, STATIONS = 256, PLACES = 512, LONGEST = 9022 };

struct table {
    uint64_t address[PLACES];
    int16_t port[PLACES]; // -1 where no address stands
    int count;
};

struct port {
    int access; // its one VLAN, or 0 for a trunk
    unsigned char carries[4096];
};

static struct port ports[PORTS];
static struct table *tables[4096];
static int count;
static unsigned char out[3 + LONGEST];

static uint64_t address_at(const unsigned char *bytes) {
    uint64_t address = 0;
    memcpy(&address, bytes, 6);
    return address;
}

static int place_of(const struct table *table, uint64_t address) {
    int place = (int)(address * 0x9E3779B97F4A7C15u >> 55);
    while (table->port[place] >= 0 && table->address[place] != address)
        place = (place + 1) % PLACES;
    return place;
}

static void add_vlan(struct port *port, int vid) {
    port->carries[vid] = 1;
    if (tables[vid])
        return;
    tables[vid] = calloc(1, sizeof *tables[vid]);
    if (!tables[vid])
        exit(7);
    memset(tables[vid]->port, 0xff, sizeof tables[vid]->port);
}

// Writes a frame as a port gives it.
static void give(int q, int vid, int mark, const unsigned char *frame, int rest, int length) {
    unsigned char *end = out + 3;
    memcpy(end, frame, 12);
    end += 12;
    if (!ports[q].access) {
        int control = mark << 12 | vid;
        memcpy(end, (unsigned char[]){0x81, 0, (unsigned char)(control >> 8), (unsigned char)control}, 4);
        end += 4;
    }
    memcpy(end, frame + rest, (size_t)(length - rest));
    end += length - rest;
    int formed = (int)(end - out) - 3;
    out[0] = (unsigned char)q;
    out[1] = (unsigned char)(formed >> 8);
    out[2] = (unsigned char)formed;
    for (unsigned char *at = out; at < end;) {
        ssize_t done = write(1, at, (size_t)(end - at));
        if (done <= 0)
            exit(4);
        at += done;
    }
}

// The VLAN of a frame that comes in at a port, or 0.
static int vlan_of(const struct port *port, int has_tag, int control) {
    int vid = control & 4095;
    if (port->access)
        return has_tag && vid ? 0 : port->access;
    return has_tag && port->carries[vid] ? vid : 0;
}

static void take(int p, const unsigned char *frame, int length) {
    int has_tag = frame[12] == 0x81 && frame[13] == 0;
    if (length < (has_tag ? 18 : 14) || length - (has_tag ? 4 : 0) > 9018 || frame[6] & 1)
        return;
    int control = has_tag ? frame[14] << 8 | frame[15] : 0;
    int vid = vlan_of(&ports[p], has_tag, control);
    if (!vid)
        return;
    struct table *table = tables[vid];
    uint64_t source = address_at(frame + 6);
    int place = place_of(table, source);
    if (table->port[place] >= 0 || table->count < STATIONS) {
        table->count += table->port[place] < 0;
        table->address[place] = source;
        table->port[place] = (int16_t)p;
    }
    int q = frame[0] & 1 ? -1 : table->port[place_of(table, address_at(frame))];
    int rest = has_tag ? 16 : 12;
    if (q >= 0) {
        if (q != p)
            give(q, vid, control >> 12, frame, rest, length);
        return;
    }
    for (q = 0; q < count; q++)
        if (q != p && ports[q].carries[vid])
            give(q, vid, control >> 12, frame, rest, length);
}

int main(int words, char **word) {
    static unsigned char frame[LONGEST], front[3];
    static char ahead[65536];
    for (count = 0; count + 1 < words && count < PORTS; count++) {
        char *vids = strchr(word[count + 1], ':');
        if (!vids)
            return 1;
        if (word[count + 1][0] == 'a')
            ports[count].access = atoi(vids + 1);
        for (char *vid = strtok(vids + 1, ","); vid; vid = strtok(NULL, ","))
            add_vlan(&ports[count], atoi(vid) & 4095);
    }
    setvbuf(stdin, ahead, _IOFBF, sizeof ahead);
    while (fread(front, 1, 3, stdin) == 3) {
        int length = front[1] << 8 | front[2];
        if (front[0] >= count || length < 14 || length > LONGEST || fread(frame, 1, (size_t)length, stdin) != (size_t)length)
            return 11;
        take(front[0], frame, length);
    }
    return 0;
}
