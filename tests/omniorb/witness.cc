// A client and a server of omniORB for the interface of tests/lines/omniorb.json (tests/omniorb/run).
//
// `witness server FILE` writes the reference of its object to FILE and serves; `witness client REFERENCE` calls each operation
// and writes a line for each call. The object's key is `W.I`.
#include "witness.hh"
#include <cstring>
#include <fstream>
#include <iostream>
#include <sstream>
#include <string>
#include <unistd.h>

using std::cout;
using std::endl;

class Served : public POA_W::I {
public:
    CORBA::Short size() { return -3; }
    void nothing() {}
    void nop() {}
    CORBA::Long add(CORBA::Long a, CORBA::Long b) { return a + b; }
    CORBA::Octet one(CORBA::Octet o) { return o + 1; }
    CORBA::LongLong wide(CORBA::LongLong v, CORBA::Octet &o) { o = 7; return -v; }
    CORBA::ULong count(const W::octets &os) { return os.length(); }
    void note(const char *) {}

    W::point *move(const W::point &p, W::points &ps, W::octets_out os) {
        W::point *moved = new W::point(p);
        moved->v = p.v + ps.length();
        ps.length(1);
        os = fill(4);
        os->length(3);
        for (CORBA::ULong k = 0; k < 3; k++) (*os)[k] = k + 1;
        return moved;
    }

    W::octets *fill(CORBA::ULong n) {
        W::octets *os = new W::octets;
        os->length(n);
        for (CORBA::ULong k = 0; k < n; k++) (*os)[k] = k;
        return os;
    }

    W::choice *turn(const W::choice &c) {
        if (c._d() == W::RED && c.n() == 0) throw W::nobody();
        if (c._d() == W::RED && c.n() < 0) throw W::late(5, c.n());
        if (c._d() == W::RED) throw W::bad(c.n(), "so");
        W::choice *turned = new W::choice;
        if (c._d() == W::GREEN) turned->o(strlen(c.t()));
        else turned->t("blue");
        return turned;
    }
};

static void serve(CORBA::ORB_ptr orb, const char *path) {
    CORBA::Object_var object = orb->resolve_initial_references("omniINSPOA");
    PortableServer::POA_var poa = PortableServer::POA::_narrow(object);
    PortableServer::POAManager_var manager = poa->the_POAManager();
    manager->activate();
    PortableServer::ObjectId_var id = PortableServer::string_to_ObjectId("W.I");
    Served *served = new Served();
    poa->activate_object_with_id(id, served);
    W::I_var reference = served->_this();
    CORBA::String_var text = orb->object_to_string(reference);
    std::ofstream(path) << text << endl;
    orb->run();
}

// A line for a call: what it gives, or the exception that it raises.
#define CALL(name, expression) \
    try { std::ostringstream given; given << (expression); cout << name << " " << given.str() << endl; } \
    catch (W::bad &e) { cout << name << " bad " << e.why << " " << e.text << endl; } \
    catch (W::late &e) { cout << name << " late " << int(e.o) << " " << e.v << endl; } \
    catch (CORBA::Exception &e) { cout << name << " " << e._name() << endl; }

static W::octets octets(CORBA::ULong n) {
    W::octets os;
    os.length(n);
    for (CORBA::ULong k = 0; k < n; k++) os[k] = k;
    return os;
}

static std::string moved(W::I_ptr w) {
    W::point p;
    p.o = 1, p.v = -2, p.name = CORBA::string_dup("abc");
    W::points_var ps = new W::points;
    ps->length(2);
    ps[0] = p, ps[1] = p, ps[1].o = 255;
    W::octets_var os;
    W::point_var q = w->move(p, ps, os);
    return std::to_string(q->o) + " " + std::to_string(q->v) + " " + q->name.in() + " " + std::to_string(ps->length()) + " " + std::to_string(os->length());
}

static std::string turned(W::I_ptr w, int n, const char *text, int octet) {
    W::choice c;
    if (text) c.t(text);
    else if (octet) c.o(octet);
    else c.n(n);
    W::choice_var d = w->turn(c);
    return d->_d() == W::BLUE ? "octet " + std::to_string(d->o()) : d->_d() == W::GREEN ? std::string("text ") + d->t() : "number " + std::to_string(d->n());
}

static void call(W::I_ptr w) {
    CORBA::Octet o;
    CORBA::LongLong v;
    CALL("size", w->size());
    CALL("nothing", (w->nothing(), ""));
    CALL("nop", (w->nop(), ""));
    CALL("add", w->add(1, -2));
    CALL("one", int(w->one(9)));
    CALL("wide", (v = w->wide(0x0102030405060708LL, o), std::to_string(v) + " " + std::to_string(o)));
    CALL("move", moved(w));
    CALL("turn", turned(w, 4, 0, 0));
    CALL("turn", turned(w, 0, 0, 0));
    CALL("turn", turned(w, -1, 0, 0));
    CALL("turn", turned(w, 0, "green", 0));
    CALL("turn", turned(w, 0, 0, 200));
    for (CORBA::ULong n : {0, 3}) {
        CALL("count", w->count(octets(n)));
        CALL("fill", W::octets_var(w->fill(n))->length());
    }
    CALL("note", (w->note("hi"), ""));
    CALL("non_existent", w->_non_existent());
}

int main(int argc, char **argv) {
    CORBA::ORB_var orb = CORBA::ORB_init(argc, argv);
    if (argc == 3 && std::string(argv[1]) == "server") serve(orb, argv[2]);
    if (argc == 3 && std::string(argv[1]) == "client") {
        CORBA::Object_var object = orb->string_to_object(argv[2]);
        W::I_var w = W::I::_unchecked_narrow(object);
        call(w);
        usleep(100000);  // a oneway request is sent before the end
    }
}
