/* A serial driver: takes frames off a line, here standard input, as they arrive, each read and parsed
   once, and lists them as framelist does (docs/RULES.md, 11.3). Build, once include/archive has made
   the archive:
       export PKG_CONFIG_PATH=target/archive/$(uname -m)
       cc include/driver.c $(pkg-config --cflags --libs malstrink)
   Exit status: 0 the line ended between frames, 1 a frame was refused, 2 trouble, a frame that is too
   long among it. After a refusal it stops: where the next frame begins is not known then.
   The line must block: no O_NONBLOCK, and a terminal raw, with VMIN 1 or more. Otherwise 0 bytes, or
   EAGAIN, mean only that nothing has come yet, and this driver would take them for the line's end, or
   for trouble. Not shown, since they are no matter of frames: setting a serial line up, and giving up
   on one that falls silent inside a frame. */
#define _POSIX_C_SOURCE 200809L /* read is not C's but POSIX's */
#include "malstrink.h"
#include <errno.h>
#include <signal.h>
#include <stdio.h>
#include <string.h>
#include <unistd.h>

/* how many bytes malstrink_head looks at */
#define HEAD 5
/* The longest frame that this driver takes. LEN can say 65,535, which is a frame to malstrink_parse
   like any other: what is too long for a driver is the driver's own to refuse. */
#define ROOM 1440

/* Reads n more bytes behind the *have that are there, fewer only where the line ends. A read may
   bring less than it is asked for, and a signal may break it off. The line must block, so that 0 bytes
   are its end and EAGAIN does not come. False: the line cannot be read. */
static bool read_more(int line, uint8_t *room, size_t n, size_t *have)
{
    while (n > 0) {
        const ssize_t came = read(line, room + *have, n);
        if (came == 0) break;
        if (came < 0 && errno == EINTR) continue;
        if (came < 0) return false;
        *have += (size_t)came;
        n -= (size_t)came;
    }
    return true;
}

/* A frame was parsed, and perhaps refused; or there is none, since the line ends here, its LEN is more
   than there is room for, or the line cannot be read. */
typedef enum { PARSED, ENDED, TOO_LONG, UNREADABLE } Came;

/* Takes the next frame off the line: five bytes, then the LEN - 5 that are still to come, then one
   parse. It never waits because of the parse: that refuses by 1 also a whole frame, one whose block
   runs past its end (docs/RULES.md, 3.3), and who reads on then waits for ever, or takes bytes of the
   next frame. *len is LEN, 0 where the head is refused; it is set where PARSED or TOO_LONG is
   answered, and *frame where PARSED is. room_n is 5 or more. */
static Came frame_from(int line, uint8_t *room, size_t room_n, size_t *len, MalstrinkParsed *frame)
{
    size_t have = 0;
    if (!read_more(line, room, HEAD, &have)) return UNREADABLE;
    if (have == 0) return ENDED;
    /* of a refused head LEN is 0 here: nothing more is read, and the parse refuses the same way */
    *len = malstrink_head(room, have).len;
    if (*len > room_n) return TOO_LONG;
    /* LEN may be below 5, and LEN - 5 then a huge number; the parse refuses such a frame by 4 */
    if (*len > HEAD && !read_more(line, room, *len - HEAD, &have)) return UNREADABLE;
    *frame = malstrink_parse(room, have);
    return PARSED;
}

static int cannot(const char *what)
{
    fprintf(stderr, "driver: cannot %s: %s\n", what, strerror(errno));
    return 2;
}

static int refused(size_t at, unsigned number)
{
    if (printf("%zu refused %u\n", at, number) < 0 || fflush(stdout) != 0) return cannot("write");
    fprintf(stderr, "driver: refused at %zu by %u\n", at, number);
    return 1;
}

int main(void)
{
    static uint8_t room[ROOM];
    MalstrinkParsed frame;
    size_t at, len = 0;
    /* a write to a pipe that nobody reads is to fail, so that it is said, and not to end the program */
    signal(SIGPIPE, SIG_IGN);
    if (printf("at len addr sqn code data\n") < 0 || fflush(stdout) != 0) return cannot("write");
    for (at = 0;; at += frame.len) {
        switch (frame_from(STDIN_FILENO, room, sizeof room, &len, &frame)) {
        case ENDED: return 0;
        case UNREADABLE: return cannot("read");
        case TOO_LONG:
            fprintf(stderr, "driver: cannot hold the %zu bytes of the frame at %zu, only %d\n", len, at, ROOM);
            return 2;
        case PARSED: break;
        }
        if (frame.answer.refusal != MALSTRINK_REFUSAL_NONE) return refused(at, frame.answer.refusal);
        /* each line is out before the next frame is waited for */
        if (printf("%zu %zu %u %u %u %zu\n", at, frame.len, frame.addr, frame.sqn, frame.code, frame.data_len) < 0 ||
            fflush(stdout) != 0)
            return cannot("write");
    }
}
