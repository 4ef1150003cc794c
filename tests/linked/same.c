/* Framed replies to framed questions by the library, as the program gives them: same ORIGIN ZONEFILE < questions > replies */
#include "soarnef.h"
#include <stdio.h>
#include <stdlib.h>
#include <string.h>

int main(int argc, char **argv) {
    static uint8_t text[1 << 24], message[65535], reply[65535], why[48];
    static const uint8_t here[4] = {127, 0, 0, 1};
    FILE *file = argc == 3 ? fopen(argv[2], "rb") : NULL;
    if (!file) return 1;
    size_t len = fread(text, 1, sizeof text, file);
    fclose(file);
    soarnef *server = malloc(soarnef_size());
    soarnef_open(server);
    int64_t refused = soarnef_add_zone(server, SOARNEF_PRIMARY, (uint8_t *)argv[1], strlen(argv[1]), text, len, why, sizeof why);
    if (refused) return fprintf(stderr, "%.*s (%lld)\n", (int)sizeof why, why, (long long)refused), 3;
    for (int first; (first = getchar()) != EOF;) {
        size_t count = (size_t)(first << 8 | getchar());
        uint8_t *asked = malloc(count ? count : 1); /* so that a read past its end is seen */
        if (fread(message, 1, count, stdin) != count) return 4;
        memcpy(asked, message, count);
        int64_t n = soarnef_serve(server, asked, count, here, 4, 53, true, 0, reply, sizeof reply);
        free(asked);
        if (n < 0) return 5;
        if (n) putchar((int)(n >> 8)), putchar((int)(n & 255)), fwrite(reply, 1, (size_t)n, stdout);
    }
    soarnef_close(server);
    free(server);
}
