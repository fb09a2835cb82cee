/* A client whose calls are made beforehand, so that their time is the server's and the system's.
 *
 *   ready_client PORT SERVER SERVICE SIZE CALLS FLIGHT
 *
 * SERVER is a principal, as rpc/localhost@REALM.TEST; SERVICE is none, which is without authentication, integrity or privacy. A context is made by
 * libtirpc and by the SPNEGO of MIT Kerberos, then CALLS calls of NULL, or of ECHO with SIZE octets where SIZE isn't 0. They go over the
 * context's connection, since a server of libtirpc keeps a context with that, FLIGHT of them in one write, after the replies to those before.
 * Where SERVICE is contexts, each call creates a context by a token of its own (RFC 2203 section 5.2.2), and the reply has to complete it.
 * A line "CALLS SECONDS" is printed. With TOGETHER in the environment a line "ready" is printed before, and the calls begin at a line of
 * standard input. The status is 0 where as many calls were done. */
#include "ready_calls.h"

static double seconds(void)
{
    struct timespec now;
    clock_gettime(CLOCK_MONOTONIC, &now);
    return now.tv_sec + now.tv_nsec / 1e9;
}

/* Waits for the others, where there are some. */
static void wait_for_others(void)
{
    if (getenv("TOGETHER") == NULL)
        return;
    puts("ready");
    fflush(stdout);
    getchar();
}

int main(int argc, char **argv)
{
    if (argc != 7)
        return 2;
    int port = atoi(argv[1]), size = atoi(argv[4]), calls = atoi(argv[5]), flight = atoi(argv[6]);
    int service = strcmp(argv[3], "privacy") == 0 ? RPCSEC_GSS_SVC_PRIVACY : strcmp(argv[3], "integrity") == 0 ? RPCSEC_GSS_SVC_INTEGRITY : 0;
    int creates = strcmp(argv[3], "contexts") == 0;
    struct authgss_private_data by = { 0 };
    gss_name_t server = name_of(argv[2]);
    int link = connected(port);
    if (service != 0)
        by = created(link, port, argv[2], service);
    unsigned char *octets = calloc(1, size + 1);
    struct octets records = { 0, 0, NULL };
    struct read got = { 0, 0, 1 << 20, malloc(1 << 20) };
    size_t *ends = malloc((calls + 1) * sizeof *ends);
    ends[0] = 0;
    for (int i = 0; i < calls; i++) {
        if (creates)
            put_creation(&records, server, i + 1);
        else
            put_call(&records, &by, service, i + 1, octets, size);
        ends[i + 1] = records.count;
    }
    wait_for_others();
    double start = seconds();
    for (int at = 0; at < calls; at += flight) {
        int next = at + flight < calls ? at + flight : calls;
        send_all(link, records.at + ends[at], ends[next] - ends[at]);
        if (read_replies(link, &got, next - at, creates) != next - at)
            return 1;
    }
    printf("%d %.6f\n", calls, seconds() - start);
    close(link);
    return 0;
}
