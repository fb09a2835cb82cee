/* A client for trials of a server that runs for months: contexts that stay and are called, and contexts that are made and left.
 *
 *   months_client PORT SERVER stay CONTEXTS     makes so many contexts; at each line of standard input it calls NULL by integrity over each of
 *                                               them, and prints how many of these calls were done
 *   months_client PORT SERVER leave CONTEXTS    makes one context that stays; at each line it makes as many further contexts, by tokens that were
 *                                               made before that line, and leaves them without an end; then it calls NULL over the one that stays.
 *                                               It prints how many contexts were completed, and whether the call was done, as 1 or 0
 *
 * SERVER is a principal, as rpc/localhost@REALM.TEST. A line "ready" is printed before the first line is read, and the program ends with standard
 * input. Contexts are made by libtirpc and by the SPNEGO of MIT Kerberos. Each line has a connection of its own, so no context hangs on one. */
#include "ready_calls.h"

/* A context that stays: what libtirpc has of it, and the number of the last call. */
struct standing {
    struct authgss_private_data by;
    uint32_t number;
};

static struct read got = { 0, 0, 1 << 20, NULL };

/* Contexts that were made over a connection of their own. */
static struct standing *made_standing(int port, char *server, int count)
{
    struct standing *made = calloc(count, sizeof *made);
    for (int i = 0; i < count; i++) {
        int link = connected(port);
        made[i].by = created(link, port, server, RPCSEC_GSS_SVC_INTEGRITY);
        close(link);
    }
    return made;
}

/* One NULL call over each of these contexts, all in one write: how many were done. */
static int called(int port, struct standing *contexts, int count)
{
    struct octets records = { 0, 0, NULL };
    int link = connected(port);
    for (int i = 0; i < count; i++)
        put_call(&records, &contexts[i].by, RPCSEC_GSS_SVC_INTEGRITY, ++contexts[i].number, "", 0);
    send_all(link, records.at, records.count);
    int done = read_replies(link, &got, count, 0);
    free(records.at);
    close(link);
    return done;
}

/* Creations by tokens of their own. */
static struct octets made_creations(gss_name_t server, int count)
{
    struct octets records = { 0, 0, NULL };
    for (int i = 0; i < count; i++)
        put_creation(&records, server, i + 1);
    return records;
}

/* Sends these creations; how many were completed. */
static int completed(int port, const struct octets *records, int count)
{
    int link = connected(port);
    send_all(link, records->at, records->count);
    int done = read_replies(link, &got, count, 1);
    close(link);
    return done;
}

static void stay(int port, char *server, int count)
{
    struct standing *contexts = made_standing(port, server, count);
    puts("ready");
    fflush(stdout);
    while (getchar() != EOF) {
        printf("%d\n", called(port, contexts, count));
        fflush(stdout);
    }
}

static void leave(int port, char *server, int count)
{
    struct standing *one = made_standing(port, server, 1);
    gss_name_t name = name_of(server);
    struct octets records = made_creations(name, count);
    puts("ready");
    fflush(stdout);
    while (getchar() != EOF) {
        int made = completed(port, &records, count);
        printf("%d %d\n", made, called(port, one, 1));
        fflush(stdout);
        free(records.at);
        records = made_creations(name, count);
    }
}

int main(int argc, char **argv)
{
    if (argc != 5 || atoi(argv[4]) < 1)
        return 2;
    got.at = malloc(got.room);
    if (strcmp(argv[3], "stay") == 0)
        stay(atoi(argv[1]), argv[2], atoi(argv[4]));
    else if (strcmp(argv[3], "leave") == 0)
        leave(atoi(argv[1]), argv[2], atoi(argv[4]));
    else
        return 2;
    return 0;
}
