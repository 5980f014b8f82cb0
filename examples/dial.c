/* Shows which addresses a proxy names, and writes one of them again. The proxy is what the row of a proxy member holds. */
#include "icehub.h"

#include <stdio.h>
#include <string.h>

/* Identity `guard`, no category, no facet, twoway, not secure, protocol 1.0, encoding 1.1; TCP and UDP to port 4061 of `hub`. */
static const uint8_t proxy[] = {
    5, 'g', 'u', 'a', 'r', 'd', 0, 0, 0, 0, 1, 0, 1, 1, 2, /* general parameters, two endpoints */
    1, 0, 19, 0, 0, 0, 1, 1, 3, 'h', 'u', 'b', 0xDD, 0x0F, 0, 0, 0x60, 0xEA, 0, 0, 0,
    3, 0, 15, 0, 0, 0, 1, 1, 3, 'h', 'u', 'b', 0xDD, 0x0F, 0, 0, 0
};

/* Opens the endpoint, shows its address and writes it again: 0 if that is the same bytes. */
static int dial(const uint8_t *endpoint, size_t length)
{
    uint8_t numbers[ICEHUB_ENDPOINT_SIZE], again[64];
    const uint8_t *host;
    uint32_t refusal, type, host_len, port, timeout;
    bool compress;

    refusal = icehub_endpoint(endpoint, length, numbers, sizeof numbers);
    if (refusal != ICEHUB_OK) {
        printf("not opened: %s\n", icehub_refusal_text(refusal));
        return 1;
    }
    type = icehub_number(numbers, 1);
    if (icehub_number(numbers, 0) == 0) {
        printf("type %u, not opened\n", (unsigned)type);
        return 0;
    }
    host = endpoint + icehub_number(numbers, 2);
    host_len = icehub_number(numbers, 3);
    port = icehub_number(numbers, 4);
    timeout = icehub_number(numbers, 5);
    compress = icehub_number(numbers, 6) == 1;
    printf("%s -h %.*s -p %u", type == ICEHUB_TCP ? "tcp" : type == ICEHUB_SSL ? "ssl" : "udp", (int)host_len,
           (const char *)host, (unsigned)port);
    if (type != ICEHUB_UDP) {
        printf(" -t %d", (int)icehub_i32(numbers + 20));
    }
    printf("%s\n", compress ? " -z" : "");

    if (icehub_endpoint_write(type, host, host_len, port, timeout, compress, again, sizeof again) != ICEHUB_OK ||
        icehub_endpoint_write_length(type, host, host_len, port, timeout, compress, sizeof again) != length) {
        return 1;
    }
    return memcmp(again, endpoint, length) == 0 ? 0 : 1;
}

int main(void)
{
    uint8_t numbers[ICEHUB_PROXY_ENDPOINT_SIZE]; /* how many endpoints, place, length */
    uint32_t n = 0, count = 0;
    int failed = 0;
    do {
        const uint32_t refusal = icehub_proxy_endpoint(proxy, sizeof proxy, n, numbers, sizeof numbers);
        if (refusal != ICEHUB_OK) {
            printf("no proxy: %s\n", icehub_refusal_text(refusal));
            return 1;
        }
        count = icehub_number(numbers, 0);
        if (n < count) { /* nil, or an adapter in place of endpoints: none */
            failed |= dial(proxy + icehub_number(numbers, 1), icehub_number(numbers, 2));
        }
        n++;
    } while (n < count);
    return failed || count != 2;
}
