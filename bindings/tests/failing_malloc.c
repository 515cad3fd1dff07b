/* malloc fails at the Nth call, for each N: over a file of frames every call still has an answer, and nothing is lost or used twice. Linked with
 * --wrap=malloc,--wrap=realloc, and under AddressSanitizer. Prints how many calls there were. */
#include <sqtcp.h>
#include <string.h>
#include "frames.h"

void *__real_malloc(size_t n);
void *__real_realloc(void *at, size_t n);

static long until = -1, asked;                           /* the call that fails, counted from 0 */

static int fails(void) { return asked++ == until; }

void *__wrap_malloc(size_t n) { return fails() ? NULL : __real_malloc(n); }
void *__wrap_realloc(void *at, size_t n) { return fails() ? NULL : __real_realloc(at, n); }

/* Serves all frames; answers how often memory was missing, or -1 for another answer. */
static int serves(FILE *frames, const sqtcp_setting *setting) {
    static uint8_t room[65535];
    sqtcp server = {0};
    uint64_t now;
    size_t n;
    int missing = 0;
    if (sqtcp_open(&server, setting) != SQTCP_DONE) return server.open ? -1 : 1;
    rewind(frames);
    for (const uint8_t *body; (body = next_frame(frames, &now, &n)) != NULL;) {
        uint32_t answer = n ? sqtcp_datagram(&server, now, body, n) : sqtcp_tick(&server, now);
        if (answer > SQTCP_NO_MEMORY) return -1;
        missing += answer == SQTCP_NO_MEMORY;
        while (sqtcp_next(&server, room, sizeof room) != 0) {}
        if (sqtcp_connections(&server) > setting->places) return -1;
    }
    sqtcp_close(&server);
    return missing;
}

int main(int count, char **words) {
    sqtcp_setting setting = {.address = 0x0a090002, .broadcast = 0x0a0900ff, .places = 2, .idle = 7200000000, .bytes = 1 << 28, .pings = 1000,
                             .segment = 1460, .echo = 7, .discard = 9};
    FILE *frames = count > 1 ? fopen(words[1], "rb") : NULL;
    if (!frames) return 2;
    long calls = 0;
    for (int missing = 1; missing != 0 || until < calls; until++) {
        asked = 0;
        missing = serves(frames, &setting);
        if (missing < 0) return printf("call %ld: another answer\n", until), 1;
        if (missing > 1) return printf("call %ld: %d answers for one call\n", until, missing), 1;
        if (until < 0 && missing != 0) return printf("memory was there\n"), 1;
        if (until < 0) calls = asked;
        if (until >= calls) break;
    }
    fclose(frames);
    printf("%ld calls\n", calls);
    return 0;
}
