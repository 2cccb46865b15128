/* The messages of shapes.x by rpcgen's code, between a scanner and a printer of JSON: a yardstick.
 *
 * yardstick marshal | yardstick unmarshal, over lines as flick has them. The scanner takes members in
 * the order in which bench/run writes them and looks at no more than it has to, so what it costs is
 * near the least. A line that is wrong ends the program.
 */
#include <ctype.h>
#include <stdio.h>
#include <stdlib.h>
#include <string.h>
#include <rpc/rpc.h>
#include "shapes.h"

enum { LONGEST = 4194304 };

static char message[LONGEST];

static void fail(const char *what)
{
    fprintf(stderr, "yardstick: %s\n", what);
    exit(1);
}

static void *room(size_t size)
{
    void *memory = malloc(size);
    if (memory == NULL)
        fail("no memory");
    return memory;
}

/* ---- JSON to values */

static void pass(const char **at, const char *text)
{
    size_t length = strlen(text);
    if (strncmp(*at, text, length) != 0)
        fail(text);
    *at += length;
}

static int passes(const char **at, const char *text)
{
    int does = strncmp(*at, text, strlen(text)) == 0;
    if (does)
        *at += strlen(text);
    return does;
}

static long long number(const char **at, const char *before)
{
    char *end;
    long long n;
    pass(at, before);
    n = strtoll(*at, &end, 10);
    if (end == *at)
        fail("a number");
    *at = end;
    return n;
}

static bool_t boolean(const char **at, const char *before)
{
    pass(at, before);
    if (passes(at, "true"))
        return TRUE;
    pass(at, "false");
    return FALSE;
}

/* A string of characters up to U+00FF, an octet each. */
static char *string(const char **at, const char *before)
{
    const char *from;
    char *text, *to;
    pass(at, before);
    pass(at, "\"");
    from = *at;
    to = text = room(strcspn(from, "\"") + 1);
    while (*from != '"') {
        if (*from == '\\' || *from == '\0')
            fail("a plain string");
        if ((*from & 0xe0) == 0xc0) {
            *to++ = (char)(((from[0] & 0x03) << 6) | (from[1] & 0x3f));
            from += 2;
        } else {
            *to++ = *from++;
        }
    }
    *to = '\0';
    *at = from + 1;
    return text;
}

static int digit(char c)
{
    return isdigit((unsigned char)c) ? c - '0' : isxdigit((unsigned char)c) ? tolower((unsigned char)c) - 'a' + 10 : -1;
}

static size_t octets(const char *text, size_t length, char *into)
{
    size_t i;
    if (length % 2 != 0)
        fail("an odd digit");
    for (i = 0; i < length / 2; i++) {
        int high = digit(text[2 * i]), low = digit(text[2 * i + 1]);
        if (high < 0 || low < 0)
            fail("a digit");
        into[i] = (char)(high << 4 | low);
    }
    return length / 2;
}

static void scan_entry(const char **at, entry *e)
{
    e->name = string(at, "{\"name\":");
    e->owner = string(at, ",\"owner\":");
    e->group = string(at, ",\"group\":");
    e->kind = string(at, ",\"kind\":");
    e->target = string(at, ",\"target\":");
    e->comment = string(at, ",\"comment\":");
    e->mode = (u_int)number(at, ",\"mode\":");
    e->links = (u_int)number(at, ",\"links\":");
    e->uid = (u_int)number(at, ",\"uid\":");
    e->gid = (u_int)number(at, ",\"gid\":");
    e->size = (u_quad_t)number(at, ",\"size\":");
    e->used = (u_quad_t)number(at, ",\"used\":");
    e->device = (u_int)number(at, ",\"device\":");
    e->node = (u_int)number(at, ",\"node\":");
    e->accessed = (int)number(at, ",\"accessed\":");
    e->modified = (int)number(at, ",\"modified\":");
    e->changed = (int)number(at, ",\"changed\":");
    e->created = (int)number(at, ",\"created\":");
    e->hidden = boolean(at, ",\"hidden\":");
    e->locked = boolean(at, ",\"locked\":");
    pass(at, "}");
}

static void scan_rects(const char **at, rects *r)
{
    u_int space = 16;
    r->rects_len = 0;
    r->rects_val = room(space * sizeof(rect));
    pass(at, "[");
    while (!passes(at, "]")) {
        rect *one;
        if (r->rects_len > 0)
            pass(at, ",");
        if (r->rects_len == space) {
            space *= 2;
            r->rects_val = realloc(r->rects_val, space * sizeof(rect));
            if (r->rects_val == NULL)
                fail("no memory");
        }
        one = &r->rects_val[r->rects_len++];
        one->x = (int)number(at, "{\"x\":");
        one->y = (int)number(at, ",\"y\":");
        one->w = (int)number(at, ",\"w\":");
        one->h = (int)number(at, ",\"h\":");
        pass(at, "}");
    }
}

static void scan_blob(const char **at, blob *b)
{
    size_t length;
    pass(at, "\"");
    length = strcspn(*at, "\"");
    b->blob_val = room(length / 2 + 1);
    b->blob_len = (u_int)octets(*at, length, b->blob_val);
    *at += length + 1;
}

/* ---- values to JSON */

/* Writes as flick does: octets from 128 on in two, and members in the order of their names. */
static void put_string(const char *text)
{
    putchar('"');
    for (; *text != '\0'; text++) {
        unsigned char c = (unsigned char)*text;
        if (c == '"' || c == '\\')
            printf("\\%c", c);
        else if (c < 0x80)
            putchar(c);
        else
            printf("%c%c", 0xc0 | c >> 6, 0x80 | (c & 0x3f));
    }
    putchar('"');
}

static void print_entry(const entry *e)
{
    printf("{\"accessed\":%d,\"changed\":%d,\"comment\":", e->accessed, e->changed);
    put_string(e->comment);
    printf(",\"created\":%d,\"device\":%u,\"gid\":%u,\"group\":", e->created, e->device, e->gid);
    put_string(e->group);
    printf(",\"hidden\":%s,\"kind\":", e->hidden ? "true" : "false");
    put_string(e->kind);
    printf(",\"links\":%u,\"locked\":%s,\"mode\":%u,\"modified\":%d,\"name\":", e->links, e->locked ? "true" : "false", e->mode, e->modified);
    put_string(e->name);
    printf(",\"node\":%u,\"owner\":", e->node);
    put_string(e->owner);
    printf(",\"size\":%llu,\"target\":", (unsigned long long)e->size);
    put_string(e->target);
    printf(",\"uid\":%u,\"used\":%llu}", e->uid, (unsigned long long)e->used);
}

static void print_rects(const rects *r)
{
    u_int i;
    putchar('[');
    for (i = 0; i < r->rects_len; i++) {
        const rect *one = &r->rects_val[i];
        printf("%s{\"h\":%d,\"w\":%d,\"x\":%d,\"y\":%d}", i == 0 ? "" : ",", one->h, one->w, one->x, one->y);
    }
    putchar(']');
}

static void print_hex(const char *from, size_t length)
{
    static const char digits[] = "0123456789abcdef";
    size_t i;
    for (i = 0; i < length; i++) {
        putchar(digits[(unsigned char)from[i] >> 4]);
        putchar(digits[from[i] & 15]);
    }
}

static void print_blob(const blob *b)
{
    putchar('"');
    print_hex(b->blob_val, b->blob_len);
    putchar('"');
}

static void print_pair(const pair *p)
{
    printf("{\"a\":%d,\"b\":%d}", p->a, p->b);
}

static void scan_pair(const char **at, pair *p)
{
    p->a = (int)number(at, "{\"a\":");
    p->b = (int)number(at, ",\"b\":");
    pass(at, "}");
}

/* ---- messages */

typedef union {
    pair two;
    entry fields;
    rects list;
    blob block;
} argument;

static const char *const names[] = { "", "PAIR", "ENTRY", "RECTS", "BLOB" };
static const xdrproc_t procs[] = { NULL, (xdrproc_t)xdr_pair, (xdrproc_t)xdr_entry, (xdrproc_t)xdr_rects, (xdrproc_t)xdr_blob };

static void scan(u_int proc, const char **at, argument *a)
{
    switch (proc) {
    case PAIR: scan_pair(at, &a->two); break;
    case ENTRY: scan_entry(at, &a->fields); break;
    case RECTS: scan_rects(at, &a->list); break;
    default: scan_blob(at, &a->block); break;
    }
}

static void print(u_int proc, const argument *a)
{
    switch (proc) {
    case PAIR: print_pair(&a->two); break;
    case ENTRY: print_entry(&a->fields); break;
    case RECTS: print_rects(&a->list); break;
    default: print_blob(&a->block); break;
    }
}

static void marshal(const char *at)
{
    XDR xdrs;
    argument a;
    struct rpc_msg call;
    u_int proc = 1;
    memset(&call, 0, sizeof call);
    memset(&a, 0, sizeof a);
    pass(&at, "{\"op\":\"SHAPES.V.");
    while (proc <= 4 && !passes(&at, names[proc]))
        proc++;
    if (proc > 4)
        fail("an operation");
    call.rm_xid = (u_int32_t)number(&at, "\",\"xid\":");
    call.rm_direction = CALL;
    call.rm_call.cb_rpcvers = RPC_MSG_VERSION;
    call.rm_call.cb_prog = SHAPES;
    call.rm_call.cb_vers = V;
    call.rm_call.cb_proc = proc;
    pass(&at, ",\"args\":[");
    scan(proc, &at, &a);
    pass(&at, "]}");
    xdrmem_create(&xdrs, message, sizeof message, XDR_ENCODE);
    if (!xdr_callmsg(&xdrs, &call) || !procs[proc](&xdrs, &a))
        fail("too long");
    print_hex(message, xdr_getpos(&xdrs));
    putchar('\n');
    xdr_destroy(&xdrs);
    xdr_free(procs[proc], (char *)&a);
}

static void unmarshal(const char *line)
{
    XDR xdrs;
    argument a;
    char cred[MAX_AUTH_BYTES], verf[MAX_AUTH_BYTES];
    struct rpc_msg call;
    u_int proc;
    size_t length = strlen(line);
    if (length > 2 * sizeof message)
        fail("too long");
    length = octets(line, length, message);
    memset(&call, 0, sizeof call);
    memset(&a, 0, sizeof a);
    call.rm_call.cb_cred.oa_base = cred;
    call.rm_call.cb_verf.oa_base = verf;
    xdrmem_create(&xdrs, message, (u_int)length, XDR_DECODE);
    if (!xdr_callmsg(&xdrs, &call) || (proc = call.rm_call.cb_proc) < 1 || proc > 4)
        fail("a head");
    if (!procs[proc](&xdrs, &a) || xdr_getpos(&xdrs) != length)
        fail("a body");
    printf("{\"args\":[");
    print(proc, &a);
    printf("],\"op\":\"SHAPES.V.%s\",\"xid\":%u}\n", names[proc], call.rm_xid);
    xdr_destroy(&xdrs);
    xdr_free(procs[proc], (char *)&a);
}

int main(int count, char **words)
{
    char *line = NULL;
    size_t space = 0;
    ssize_t length;
    if (count != 2)
        fail("a word");
    while ((length = getline(&line, &space, stdin)) > 0) {
        if (line[length - 1] == '\n')
            line[length - 1] = '\0';
        if (strcmp(words[1], "marshal") == 0)
            marshal(line);
        else
            unmarshal(line);
    }
    return 0;
}
