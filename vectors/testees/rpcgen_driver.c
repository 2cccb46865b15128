/* What rpcgen's code is asked through: a line on standard input, a line on standard output (vectors/testees/libtirpc).

   m K XID TOKENS   the call of operation K, with the arguments that the tokens tell
   r K XID TOKENS   the reply of operation K
   u DIGITS         a call is read:  K XID TOKENS
   v K DIGITS       a reply is read: XID TOKENS, or XID refused NAME NUMBERS

   A number is a token in decimal, octets and texts are digits after an x, a length stands before what it counts, a tag before
   its arm, 0 or 1 before an optional value. The file that includes this one has OPERATIONS. */
#include <stdio.h>
#include <stdlib.h>
#include <string.h>

#define MOST (1 << 20)

static char line[MOST], out[MOST], octets[MOST];
static char *token;
static size_t told;

static long long number(void)
{
    char *word = strtok(NULL, " ");
    return word[0] == '-' ? strtoll(word, NULL, 10) : (long long)strtoull(word, NULL, 10);
}

static u_int digits(const char *text, char *into)
{
    u_int n = 0;
    for (; text[0] && text[1]; text += 2) {
        unsigned octet;
        sscanf(text, "%2x", &octet);
        into[n++] = (char)octet;
    }
    return n;
}

/* The octets of the next token, with an octet 0 after them. */
static char *block(u_int *n)
{
    token = strtok(NULL, " ");
    char *into = calloc(strlen(token) / 2 + 1, 1);
    u_int length = digits(token + 1, into);
    if (n)
        *n = length;
    return into;
}

static void fixed(char *into, u_int n)
{
    memcpy(into, block(NULL), n);
}

static void tell_signed(long long n) { told += sprintf(out + told, " %lld", n); }
static void tell_unsigned(unsigned long long n) { told += sprintf(out + told, " %llu", n); }

static void tell_block(const char *from, u_int n)
{
    told += sprintf(out + told, " x");
    for (u_int k = 0; k < n; k++)
        told += sprintf(out + told, "%02x", (unsigned char)from[k]);
}

struct operation {
    unsigned long program, version, procedure;
    bool_t (*fill_args)(XDR *), (*show_args)(XDR *), (*fill_result)(XDR *), (*show_result)(XDR *);
};

#include OPERATIONS

static const int COUNT = sizeof operations / sizeof operations[0];

static void tell_message(XDR *xdr)
{
    u_int n = xdr_getpos(xdr);
    for (u_int k = 0; k < n; k++)
        printf("%02x", (unsigned char)octets[k]);
    printf("\n");
}

static void send_call(XDR *xdr, const struct operation *op, u_int xid)
{
    struct rpc_msg msg = {0};
    msg.rm_xid = xid;
    msg.rm_direction = CALL;
    msg.rm_call.cb_rpcvers = RPC_MSG_VERSION;
    msg.rm_call.cb_prog = op->program;
    msg.rm_call.cb_vers = op->version;
    msg.rm_call.cb_proc = op->procedure;
    if (xdr_callmsg(xdr, &msg) && op->fill_args(xdr))
        tell_message(xdr);
    else
        printf("! value\n");
}

static void send_reply(XDR *xdr, const struct operation *op, u_int xid)
{
    struct rpc_msg msg = {0};
    msg.rm_xid = xid;
    msg.rm_direction = REPLY;
    msg.rm_reply.rp_stat = MSG_ACCEPTED;
    msg.acpted_rply.ar_stat = SUCCESS;
    msg.acpted_rply.ar_results.proc = (xdrproc_t)xdr_void;
    if (xdr_replymsg(xdr, &msg) && op->fill_result(xdr))
        tell_message(xdr);
    else
        printf("! value\n");
}

static void tell_rest(XDR *xdr, u_int n)
{
    if (xdr_getpos(xdr) < n)
        printf("! trailing %u\n", xdr_getpos(xdr));
    else
        printf("%s\n", out);
}

static void read_call(XDR *xdr, u_int n)
{
    static char areas[2][MAX_AUTH_BYTES];
    struct rpc_msg msg = {0};
    msg.rm_call.cb_cred.oa_base = areas[0];
    msg.rm_call.cb_verf.oa_base = areas[1];
    if (!xdr_callmsg(xdr, &msg)) {
        printf("! head\n");
        return;
    }
    int is_there = 0;
    for (int k = 0; k < COUNT; k++) {
        const struct operation *op = &operations[k];
        if (op->program != msg.rm_call.cb_prog || op->version != msg.rm_call.cb_vers)
            continue;
        is_there = 1;
        if (op->procedure == msg.rm_call.cb_proc) {
            told = sprintf(out, "%d %u", k, (u_int)msg.rm_xid);
            if (op->show_args(xdr))
                tell_rest(xdr, n);
            else
                printf("! body\n");
            return;
        }
    }
    printf(is_there ? "! operation\n" : "! interface\n");
}

static void read_reply(XDR *xdr, const struct operation *op, u_int n)
{
    static const char *const accepted[] = {"", "PROG_UNAVAIL", "PROG_MISMATCH", "PROC_UNAVAIL", "GARBAGE_ARGS", "SYSTEM_ERR"};
    static char area[MAX_AUTH_BYTES];
    struct rpc_msg msg = {0};
    msg.acpted_rply.ar_verf.oa_base = area;
    msg.acpted_rply.ar_results.proc = (xdrproc_t)xdr_void;
    if (!xdr_replymsg(xdr, &msg)) {
        printf("! head\n");
        return;
    }
    told = sprintf(out, "%u", (u_int)msg.rm_xid);
    if (msg.rm_reply.rp_stat == MSG_DENIED && msg.rjcted_rply.rj_stat == RPC_MISMATCH)
        sprintf(out + told, " refused RPC_MISMATCH %u %u", (u_int)msg.rjcted_rply.rj_vers.low, (u_int)msg.rjcted_rply.rj_vers.high);
    else if (msg.rm_reply.rp_stat == MSG_DENIED)
        sprintf(out + told, " refused AUTH_ERROR %u", (u_int)msg.rjcted_rply.rj_why);
    else if (msg.acpted_rply.ar_stat == PROG_MISMATCH)
        sprintf(out + told, " refused PROG_MISMATCH %u %u", (u_int)msg.acpted_rply.ar_vers.low, (u_int)msg.acpted_rply.ar_vers.high);
    else if (msg.acpted_rply.ar_stat > SYSTEM_ERR) {
        printf("! head\n");
        return;
    } else if (msg.acpted_rply.ar_stat != SUCCESS)
        sprintf(out + told, " refused %s", accepted[msg.acpted_rply.ar_stat]);
    else if (!op->show_result(xdr)) {
        printf("! body\n");
        return;
    }
    tell_rest(xdr, n);
}

int main(void)
{
    XDR xdr;
    while (fgets(line, sizeof line, stdin)) {
        line[strcspn(line, "\n")] = 0;
        char what = strtok(line, " ")[0];
        if (what == 'm' || what == 'r') {
            const struct operation *op = &operations[number()];
            u_int xid = (u_int)number();
            xdrmem_create(&xdr, octets, sizeof octets, XDR_ENCODE);
            (what == 'm' ? send_call : send_reply)(&xdr, op, xid);
        } else {
            const struct operation *op = what == 'v' ? &operations[number()] : NULL;
            char *word = strtok(NULL, " ");
            u_int n = word ? digits(word, octets) : 0;
            xdrmem_create(&xdr, octets, n, XDR_DECODE);
            if (op)
                read_reply(&xdr, op, n);
            else
                read_call(&xdr, n);
        }
        fflush(stdout);
    }
    return 0;
}
