// Copies a stream of frames through: each is read whole, and written in one piece as it came.
#include <stdio.h>
#include <unistd.h>

int main(void) {
    static unsigned char frame[2 + 9018];
    static char ahead[65536];
    setvbuf(stdin, ahead, _IOFBF, sizeof ahead);
    while (fread(frame, 1, 2, stdin) == 2) {
        size_t length = frame[0] * 256u + frame[1];
        if (length > 9018 || fread(frame + 2, 1, length, stdin) != length)
            return 1;
        if (write(1, frame, 2 + length) != (ssize_t)(2 + length))
            return 1;
    }
    return 0;
}
