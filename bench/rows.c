/* The rows of rows.x by rpcgen's code, in memory alone: a yardstick for the plain walk.
 *
 * rows VERB SHAPE COUNT, with the words of bench_wire: a run goes as far as its verb, so that what
 * sending or reading costs is the difference of two runs. It prints how many octets that took.
 */
#include <stdio.h>
#include <stdlib.h>
#include <string.h>
#include <rpc/rpc.h>
#include "rows.h"

typedef union {
    ints numbers;
    block octets;
    letters text;
} row;

static void fail(const char *what)
{
    fprintf(stderr, "rows: %s\n", what);
    exit(1);
}

static void *room(size_t size)
{
    void *memory = malloc(size);
    if (memory == NULL)
        fail("no memory");
    return memory;
}

static xdrproc_t make(const char *shape, u_int count, row *made)
{
    u_int i;
    if (strcmp(shape, "ints") == 0) {
        made->numbers.ints_len = count;
        made->numbers.ints_val = room(count * sizeof(int));
        for (i = 0; i < count; i++)
            made->numbers.ints_val[i] = (int)i;
        return (xdrproc_t)xdr_ints;
    }
    if (strcmp(shape, "opaque") == 0) {
        made->octets.block_len = count;
        made->octets.block_val = room(count);
        memset(made->octets.block_val, 7, count);
        return (xdrproc_t)xdr_block;
    }
    made->text = room((size_t)count + 1);
    memset(made->text, 'a', count);
    made->text[count] = '\0';
    return (xdrproc_t)xdr_letters;
}

int main(int count, char **words)
{
    XDR xdrs;
    xdrproc_t proc;
    row sent, received;
    char *message;
    u_int numbers, space, octets;
    if (count != 4)
        fail("VERB SHAPE COUNT");
    numbers = (u_int)strtoul(words[3], NULL, 10);
    proc = make(words[2], numbers, &sent);
    if (strcmp(words[1], "make") == 0) {
        puts("0 octets");
        return 0;
    }
    space = 4 * numbers + 8;
    message = room(space);
    xdrmem_create(&xdrs, message, space, XDR_ENCODE);
    if (!proc(&xdrs, &sent))
        fail("too long");
    octets = xdr_getpos(&xdrs);
    xdr_destroy(&xdrs);
    if (strcmp(words[1], "read") == 0) {
        memset(&received, 0, sizeof received);
        xdrmem_create(&xdrs, message, octets, XDR_DECODE);
        if (!proc(&xdrs, &received))
            fail("a body");
        xdr_destroy(&xdrs);
    }
    printf("%u octets\n", octets);
    return 0;
}
