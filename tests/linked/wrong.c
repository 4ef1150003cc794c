/* Wrong arguments of every kind, and what each call answers: prints each expectation that isn't met, and ends with their count. */
#include "soarnef.h"
#include <stdio.h>
#include <stdlib.h>
#include <string.h>

static int failed;
static soarnef *server;
static const uint8_t here[4] = {127, 0, 0, 1}, none[1];
static const char zone[] = "example.com. 300 IN SOA ns.example.com. host.example.com. 1 2 3 4 5\nwww.example.com. 300 IN A 192.0.2.1\n";
static const uint8_t question[33] = "\x12\x34\x01\0\0\x01\0\0\0\0\0\0\x03www\x07" "example\x03" "com\0\0\x01\0\x01";

static void is(int line, int64_t got, int64_t wanted) {
    if (got != wanted) failed++, printf("wrong.c:%d: %lld, not %lld\n", line, (long long)got, (long long)wanted);
}
#define IS(call, wanted) is(__LINE__, (call), (wanted))
#define TEXT(words) (const uint8_t *)(words), strlen(words)

/* A copy of octets in memory of exactly their size, so that the sanitizer sees each access beside them. */
static uint8_t *copy(const void *octets, size_t len) {
    uint8_t *made = malloc(len ? len : 1);
    return memcpy(made, octets, len);
}

static int64_t add(uint8_t kind, const char *origin, const char *text, size_t len, size_t room, const char *told) {
    uint8_t *why = copy(zone, room), *exact = copy(text, len), *name = copy(origin, strlen(origin));
    memset(why, 'x', room);
    int64_t n = soarnef_add_zone(server, kind, name, strlen(origin), exact, len, why, room);
    if (told && memcmp(why, told, room < strlen(told) ? room : strlen(told)))
        failed++, printf("%.*s, not %s\n", (int)room, why, told);
    free(why), free(exact), free(name);
    return n;
}

static int64_t ask(const uint8_t *address, size_t len, size_t asked, size_t room) {
    uint8_t *reply = malloc(room ? room : 1), *message = copy(question, asked), *from = copy(address, len);
    int64_t n = soarnef_serve(server, message, asked, from, len, 53, false, 0, reply, room);
    free(reply), free(message), free(from);
    return n;
}

static void zones(void) {
    IS(add(3, "example.com.", zone, sizeof zone - 1, 48, "x"), SOARNEF_WRONG_SETTING);
    IS(add(255, "example.com", "\xff", 1, 48, "x"), SOARNEF_WRONG_SETTING);
    IS(add(0, "example.com", "\xff", 1, 48, "x"), SOARNEF_WRONG_TEXT);
    IS(add(0, "example.com", zone, sizeof zone - 1, 48, "x"), SOARNEF_WRONG_NAME);
    IS(add(0, "", zone, sizeof zone - 1, 48, "x"), SOARNEF_WRONG_NAME);
    IS(add(1, "example.net.", zone, sizeof zone - 1, 48, "line 1: OutsideZone"), 1);
    IS(add(2, "example.com.", "\n\na b\n", 6, 48, "line 3: FieldCount"), 3);
    IS(add(2, "example.com.", "\n\na b\n", 6, 5, "line "), 3);
    IS(add(2, "example.com.", "a b", 3, 0, NULL), 1);
    IS(ask(here, 4, 33, 512), 33);
    IS(add(0, "example.com.", "", 0, 0, NULL), 0);
    IS(add(0, "example.com.", zone, sizeof zone - 1, 0, NULL), 0);
    IS(ask(here, 4, 33, 512), 49);
}

static void messages(void) {
    for (size_t len = 0; len <= 20; len++)
        if (len != 4 && len != 16) IS(ask((const uint8_t *)zone, len, 33, 512), SOARNEF_WRONG_ADDRESS);
    IS(ask((const uint8_t *)zone, 16, 33, 512), 49);
    for (size_t room = 0; room < 49; room++) IS(ask(here, 4, 33, room), SOARNEF_NO_ROOM);
    IS(ask(here, 4, 33, 49), 49);
    for (size_t len = 0; len < 12; len++) IS(ask(here, 4, len, 512), 0);
    for (size_t len = 12; len < 33; len++) ask(here, 4, len, 512);
}

static void lists(void) {
    soarnef_blocklist settings = {.ttl = 60, .min_wildcard_depth = 2, .wildcard_match = true, .sinkhole_ipv4 = {192, 0, 2, 99}};
    char long_text[257] = "";
    memset(long_text, 'a', 256);
    settings.action = 3;
    IS(soarnef_add_blocklist(server, &settings, TEXT("x"), TEXT("\xff"), TEXT(long_text)), SOARNEF_WRONG_SETTING);
    settings.action = 1;
    IS(soarnef_add_blocklist(server, &settings, TEXT("x"), TEXT("\xff"), TEXT(long_text)), SOARNEF_TOO_LONG);
    IS(soarnef_add_blocklist(server, &settings, TEXT("x"), TEXT("\xff"), TEXT("m")), SOARNEF_WRONG_TEXT);
    IS(soarnef_add_blocklist(server, &settings, TEXT("x"), TEXT("a.\n"), TEXT("\xff")), SOARNEF_WRONG_TEXT);
    IS(soarnef_add_blocklist(server, &settings, TEXT("x"), TEXT("a.\n"), TEXT("m")), SOARNEF_WRONG_NAME);
    IS(soarnef_add_blocklist(server, &settings, TEXT("."), none, 0, none, 0), 0);
    IS(ask(here, 4, 33, 512), 49);
    IS(soarnef_remove(server, TEXT("example.com.")), 0);
    IS(soarnef_add_blocklist(server, &settings, TEXT("."), TEXT("*.example.com\n"), TEXT(long_text + 1)), 0);
    IS(ask(here, 4, 33, 512), 49 + 16 - 4 + 256);
    IS(soarnef_remove(server, TEXT("example.com.")), SOARNEF_NOT_FOUND);
    IS(soarnef_remove(server, TEXT("example.com")), SOARNEF_WRONG_NAME);
    IS(soarnef_remove(server, none, 0), SOARNEF_WRONG_NAME);
    IS(soarnef_remove(server, TEXT(".")), 0);
    IS(ask(here, 4, 33, 512), 33);
}

static void access_lists(void) {
    soarnef_network home = {.address = {192, 0, 2}, .address_len = 4, .prefix_len = 24}, wrong[3] = {home, home, home};
    const uint8_t inside[4] = {192, 0, 2, 7};
    IS(add(0, "example.com.", zone, sizeof zone - 1, 0, NULL), 0);
    IS(soarnef_set_access(server, &home, 1), 0);
    wrong[1].address_len = 5, wrong[2].prefix_len = 33;
    IS(soarnef_set_access(server, wrong, 3), SOARNEF_WRONG_ADDRESS);
    IS(soarnef_set_access(server, wrong + 2, 1), SOARNEF_WRONG_SETTING);
    wrong[1].address_len = 17;
    IS(soarnef_set_access(server, wrong, 3), SOARNEF_WRONG_ADDRESS);
    wrong[1].address_len = 16, wrong[1].prefix_len = 129;
    IS(soarnef_set_access(server, wrong, 3), SOARNEF_WRONG_SETTING);
    IS(ask(here, 4, 33, 512), 33);
    IS(ask(inside, 4, 33, 512), 49);
    home.denied = true;
    IS(soarnef_set_access(server, &home, 1), 0);
    IS(ask(here, 4, 33, 512), 49);
    IS(ask(inside, 4, 33, 512), 33);
    IS(soarnef_set_access(server, &home, 0), 0);
    IS(ask(inside, 4, 33, 512), 49);
}

static void identifiers(void) {
    uint8_t *octets = calloc(1, 65532);
    IS(soarnef_set_nsid(server, octets, 65532), SOARNEF_TOO_LONG);
    IS(soarnef_set_nsid(server, octets, 65531), 0);
    IS(ask(here, 4, 33, 512), 49);
    IS(soarnef_set_nsid(server, none, 0), 0);
    free(octets);
}

int main(void) {
    server = malloc(soarnef_size());
    soarnef_open(server);
    zones();
    messages();
    lists();
    access_lists();
    identifiers();
    soarnef_close(server);
    soarnef_open(server); /* a server may be opened again where one was */
    IS(ask(here, 4, 33, 512), 33);
    soarnef_close(server);
    free(server);
    return failed ? 1 : 0;
}
