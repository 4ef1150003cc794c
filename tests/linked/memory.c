/* Each request for memory of each call refused in turn: the call returns that it is out of memory, and the server answers as before;
 * or it succeeds, where memory is only grown in place. Prints how many requests each call makes, and what isn't so. */
#include "soarnef.h"
#include <stdio.h>
#include <stdlib.h>
#include <string.h>

static long until = -1; /* how many requests are granted before one is refused; -1: all are */
static int failed;
static soarnef *server;

void *__real_malloc(size_t size);
void *__real_realloc(void *at, size_t size);
void *__real_calloc(size_t count, size_t size);
void *__real_aligned_alloc(size_t alignment, size_t size);

static bool granted(void) { return until < 0 || until-- > 0; }

void *__wrap_malloc(size_t size) { return granted() ? __real_malloc(size) : NULL; }
void *__wrap_realloc(void *at, size_t size) { return granted() ? __real_realloc(at, size) : NULL; }
void *__wrap_calloc(size_t count, size_t size) { return granted() ? __real_calloc(count, size) : NULL; }
void *__wrap_aligned_alloc(size_t alignment, size_t size) { return granted() ? __real_aligned_alloc(alignment, size) : NULL; }

static const char zone[] =
    "example.com. 300 IN SOA ns.example.com. host.example.com. 1 2 3 4 5\n"
    "example.com. 300 IN MX 10 mail.example.com.\nexample.com. 300 IN MX 20 www.example.com.\n"
    "mail.example.com. 300 IN AAAA 2001:db8::1\nwww.example.com. 300 IN A 192.0.2.1\n"
    "a-name-of-more-than-thirty-nine-octets-here.example.com. 300 IN TXT \"text\"\n";
static const char other[] = "example.com. 300 IN SOA ns.example.com. host.example.com. 1 2 3 4 5\n";
static const uint8_t here[4] = {127, 0, 0, 1};
/* The MX of the apex with an OPT that asks for the identifier, and a name of another zone. */
static const uint8_t mail[] = "\x12\x34\x01\0\0\x01\0\0\0\0\0\x01\x07" "example\x03" "com\0\0\x0f\0\x01\0\0\x29\x04\xd0\0\0\0\0\0\x04\0\x03\0";
static const uint8_t far[] = "\x12\x34\x01\0\0\x01\0\0\0\0\0\0\x03www\x07" "example\x03net\0\0\x01\0";

struct answers {
    int64_t counts[2];
    uint8_t octets[2][512];
};

static int64_t ask(const uint8_t *message, size_t len, uint8_t *reply) {
    return soarnef_serve(server, message, len, here, 4, 53, false, 0, reply, 512);
}

static struct answers answers(void) {
    struct answers found;
    memset(&found, 0, sizeof found);
    found.counts[0] = ask(mail, sizeof mail, found.octets[0]);
    found.counts[1] = ask(far, sizeof far, found.octets[1]);
    return found;
}

#define TEXT(words) (const uint8_t *)(words), strlen(words)

static int64_t adds(void) { uint8_t why[48]; return soarnef_add_zone(server, SOARNEF_PRIMARY, TEXT("example.com."), TEXT(zone), why, 48); }
static int64_t replaces(void) { uint8_t why[48]; return soarnef_add_zone(server, SOARNEF_PRIMARY, TEXT("example.com."), TEXT(other), why, 48); }
static int64_t blocks(void) {
    soarnef_blocklist settings = {.ttl = 60, .action = 1, .min_wildcard_depth = 1, .wildcard_match = true};
    return soarnef_add_blocklist(server, &settings, TEXT("a-list-of-more-than-thirty-nine-octets-here.example.net."),
                                 TEXT("*.example.net\n0.0.0.0 www.example.org\n"), TEXT("blocked"));
}
static int64_t lists_all(void) {
    soarnef_blocklist settings = {.ttl = 60};
    return soarnef_add_blocklist(server, &settings, TEXT("."), TEXT("www.example.net\n"), TEXT("blocked"));
}
static int64_t unblocks(void) { return soarnef_remove(server, TEXT("a-list-of-more-than-thirty-nine-octets-here.example.net.")); }
static int64_t allows(void) {
    soarnef_network networks[12];
    for (int i = 0; i < 12; i++) networks[i] = (soarnef_network){.address = {127, 0, 0, (uint8_t)i}, .address_len = i % 2 ? 16 : 4, .prefix_len = 32, .denied = i % 3 == 0};
    return soarnef_set_access(server, networks, 12);
}
static int64_t identifies(void) { return soarnef_set_nsid(server, TEXT("ns1.example.com")); }
static int64_t serves(void) {
    uint8_t reply[512];
    int64_t n = ask(mail, sizeof mail, reply);
    return n > 0 ? 0 : n;
}

static void tries(const char *name, int64_t (*call)(void)) {
    for (long n = 0;; n++) {
        struct answers before = answers();
        until = n;
        int64_t result = call();
        bool refused = until == -1;
        until = -1;
        struct answers after = answers();
        if (!refused) {
            printf("%s: %ld requests\n", name, n);
            if (result) failed++, printf("%s: %lld\n", name, (long long)result);
            return;
        }
        if (!result) continue; /* it could do without */
        if (result != SOARNEF_OUT_OF_MEMORY) failed++, printf("%s, request %ld: %lld\n", name, n, (long long)result);
        if (memcmp(&before, &after, sizeof before)) failed++, printf("%s, request %ld: the server is another\n", name, n);
    }
}

int main(void) {
    server = malloc(soarnef_size());
    soarnef_open(server);
    tries("adds a zone", adds);
    tries("replaces a zone", replaces);
    tries("adds a zone", adds);
    tries("adds a list", blocks);
    tries("removes a list", unblocks);
    tries("lists all", lists_all);
    tries("sets networks", allows);
    tries("sets an identifier", identifies);
    tries("serves", serves);
    soarnef_close(server);
    free(server);
    return failed ? 1 : 0;
}
