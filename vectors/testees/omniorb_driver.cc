// What omniORB is asked through: a line on standard input, a line on standard output (vectors/testees/omniorb).
//
//   m ORDER AT TYPES TOKENS   the octets of values from place AT of a message on; ORDER is 1 for the least significant octet first
//   u ORDER AT TYPES OCTETS   the values of a message from place AT on, in tokens
//
// TYPES are their number and each type: a letter (o c b s S l L q Q) for a number, `e N` an enum of N items, `t N` a string,
// `a N TYPE` an array, `v N TYPE` a sequence, `r N TYPE..` a struct, `u TYPE N (LABEL TYPE)..` a union, whose label is d for the
// default. A bound of 0 is none. A value is its numbers in decimal, a string digits after an x; a sequence has its length
// first. The values are held by dynamic Anys, and omniORB sends and reads them by their TypeCodes.
#include <omniORB4/CORBA.h>
#include <omniORB4/minorCode.h>

#include <cstdio>
#include <iostream>
#include <sstream>
#include <string>
#include <vector>

using namespace CORBA;
using DynamicAny::DynAny_ptr;
using DynamicAny::DynAny_var;

static ORB_var orb;
static DynamicAny::DynAnyFactory_var factory;
static int names;

static std::string fresh()
{
    return "n" + std::to_string(++names);
}

static Any label_of(TypeCode_ptr tag, long long n)
{
    DynAny_var made = factory->create_dyn_any_from_type_code(tag);
    switch (tag->kind()) {
    case tk_boolean: made->insert_boolean(n); break;
    case tk_char: made->insert_char(n); break;
    case tk_short: made->insert_short(n); break;
    case tk_ushort: made->insert_ushort(n); break;
    case tk_long: made->insert_long(n); break;
    case tk_ulong: made->insert_ulong(n); break;
    case tk_longlong: made->insert_longlong(n); break;
    case tk_ulonglong: made->insert_ulonglong(n); break;
    default: DynamicAny::DynEnum_var(DynamicAny::DynEnum::_narrow(made))->set_as_ulong(n);
    }
    Any_var any = made->to_any();
    return any.in();
}

static TypeCode_ptr type(std::istream &in);

static TypeCode_ptr union_type(std::istream &in)
{
    TypeCode_var tag = type(in);
    UnionMemberSeq members;
    int count;
    in >> count;
    for (int k = 0; k < count; k++) {
        std::string label;
        in >> label;
        members.length(k + 1);
        members[k].name = string_dup(fresh().c_str());
        if (label == "d")
            members[k].label <<= Any::from_octet(0);
        else
            members[k].label = label_of(tag, std::stoll(label));
        members[k].type = type(in);
    }
    std::string name = fresh();
    return orb->create_union_tc(("IDL:" + name + ":1.0").c_str(), name.c_str(), tag, members);
}

static TypeCode_ptr named_type(std::istream &in, char form)
{
    int count;
    in >> count;
    std::string name = fresh(), id = "IDL:" + name + ":1.0";
    if (form == 'e') {
        EnumMemberSeq items;
        items.length(count);
        for (int k = 0; k < count; k++)
            items[k] = string_dup(fresh().c_str());
        return orb->create_enum_tc(id.c_str(), name.c_str(), items);
    }
    StructMemberSeq members;
    members.length(count);
    for (int k = 0; k < count; k++) {
        members[k].name = string_dup(fresh().c_str());
        members[k].type = type(in);
    }
    return orb->create_struct_tc(id.c_str(), name.c_str(), members);
}

static TypeCode_ptr type(std::istream &in)
{
    char form;
    in >> form;
    if (form == 'e' || form == 'r')
        return named_type(in, form);
    if (form == 'u')
        return union_type(in);
    if (form == 't' || form == 'a' || form == 'v') {
        ULong n;
        in >> n;
        if (form == 't')
            return orb->create_string_tc(n);
        TypeCode_var element = type(in);
        return form == 'a' ? orb->create_array_tc(n, element) : orb->create_sequence_tc(n, element);
    }
    switch (form) {
    case 'o': return TypeCode::_duplicate(_tc_octet);
    case 'c': return TypeCode::_duplicate(_tc_char);
    case 'b': return TypeCode::_duplicate(_tc_boolean);
    case 's': return TypeCode::_duplicate(_tc_short);
    case 'S': return TypeCode::_duplicate(_tc_ushort);
    case 'l': return TypeCode::_duplicate(_tc_long);
    case 'L': return TypeCode::_duplicate(_tc_ulong);
    case 'q': return TypeCode::_duplicate(_tc_longlong);
    default: return TypeCode::_duplicate(_tc_ulonglong);
    }
}

static std::string octets_of(const std::string &digits)
{
    std::string octets;
    for (size_t k = 0; k + 1 < digits.size(); k += 2)
        octets.push_back(std::stoi(digits.substr(k, 2), nullptr, 16));
    return octets;
}

static std::string digits_of(const unsigned char *from, size_t n)
{
    std::string digits;
    char two[3];
    for (size_t k = 0; k < n; k++) {
        snprintf(two, sizeof two, "%02x", from[k]);
        digits += two;
    }
    return digits;
}

template <typename T> static T next(std::istream &in)
{
    T n;
    in >> n;
    return n;
}

static void fill(DynAny_ptr value, std::istream &in);

static void fill_union(DynAny_ptr value, std::istream &in)
{
    DynamicAny::DynUnion_var made = DynamicAny::DynUnion::_narrow(value);
    TypeCode_var whole = value->type(), tag = whole->discriminator_type();
    DynAny_var n = factory->create_dyn_any_from_type_code(tag);
    fill(n, in);
    made->set_discriminator(n);
    if (!made->has_no_active_member()) {
        DynAny_var member = made->member();
        fill(member, in);
    }
}

static void fill(DynAny_ptr value, std::istream &in)
{
    TypeCode_var tc = value->type();
    switch (tc->kind()) {
    case tk_octet: value->insert_octet(next<int>(in)); break;
    case tk_char: value->insert_char(next<int>(in)); break;
    case tk_boolean: value->insert_boolean(next<int>(in)); break;
    case tk_short: value->insert_short(next<int>(in)); break;
    case tk_ushort: value->insert_ushort(next<int>(in)); break;
    case tk_long: value->insert_long(next<Long>(in)); break;
    case tk_ulong: value->insert_ulong(next<ULong>(in)); break;
    case tk_longlong: value->insert_longlong(next<LongLong>(in)); break;
    case tk_ulonglong: value->insert_ulonglong(next<ULongLong>(in)); break;
    case tk_enum: DynamicAny::DynEnum_var(DynamicAny::DynEnum::_narrow(value))->set_as_ulong(next<ULong>(in)); break;
    case tk_string: value->insert_string(octets_of(next<std::string>(in).substr(1)).c_str()); break;
    case tk_union: fill_union(value, in); break;
    default:
        if (tc->kind() == tk_sequence)
            DynamicAny::DynSequence_var(DynamicAny::DynSequence::_narrow(value))->set_length(next<ULong>(in));
        for (ULong k = 0; k < value->component_count(); k++) {
            value->seek(k);
            DynAny_var part = value->current_component();
            fill(part, in);
        }
    }
}

static void show(DynAny_ptr value, std::ostream &out)
{
    TypeCode_var tc = value->type();
    out << ' ';
    switch (tc->kind()) {
    case tk_octet: out << (int)value->get_octet(); break;
    case tk_char: out << (int)(unsigned char)value->get_char(); break;
    case tk_boolean: out << (int)value->get_boolean(); break;
    case tk_short: out << value->get_short(); break;
    case tk_ushort: out << value->get_ushort(); break;
    case tk_long: out << value->get_long(); break;
    case tk_ulong: out << value->get_ulong(); break;
    case tk_longlong: out << value->get_longlong(); break;
    case tk_ulonglong: out << value->get_ulonglong(); break;
    case tk_enum: out << DynamicAny::DynEnum_var(DynamicAny::DynEnum::_narrow(value))->get_as_ulong(); break;
    case tk_string: {
        String_var text = value->get_string();
        out << 'x' << digits_of((const unsigned char *)text.in(), strlen(text.in()));
        break;
    }
    case tk_union: {
        DynamicAny::DynUnion_var made = DynamicAny::DynUnion::_narrow(value);
        DynAny_var tag = made->get_discriminator();
        show(tag, out);
        if (!made->has_no_active_member()) {
            DynAny_var member = made->member();
            show(member, out);
        }
        break;
    }
    default:
        if (tc->kind() == tk_sequence)
            out << value->component_count();
        for (ULong k = 0; k < value->component_count(); k++) {
            value->seek(k);
            DynAny_var part = value->current_component();
            show(part, out);
        }
    }
}

static std::string sent(std::istream &in, bool is_little, ULong at)
{
    cdrMemoryStream stream(0, true); // what aligns is 0
    stream.setByteSwapFlag(is_little);
    for (ULong k = 0; k < at; k++)
        stream.marshalOctet(0);
    int count = next<int>(in);
    std::vector<TypeCode_var> types(count);
    for (auto &each : types)
        each = type(in);
    for (auto &each : types) {
        DynAny_var value = factory->create_dyn_any_from_type_code(each);
        fill(value, in);
        Any_var any = value->to_any();
        any->NP_marshalDataOnly(stream);
        value->destroy();
    }
    return digits_of((unsigned char *)stream.bufPtr() + at, stream.bufSize() - at);
}

static std::string read(std::istream &in, bool is_little, ULong at)
{
    int count = next<int>(in);
    std::vector<TypeCode_var> types(count);
    for (auto &each : types)
        each = type(in);
    std::string octets = octets_of(next<std::string>(in));
    cdrMemoryStream stream;
    stream.put_octet_array((const Octet *)octets.data(), octets.size());
    stream.setByteSwapFlag(is_little);
    stream.skipInput(at);
    std::ostringstream out;
    for (auto &each : types) {
        Any any(each, nullptr);
        any.NP_unmarshalDataOnly(stream);
        DynAny_var value = factory->create_dyn_any(any);
        show(value, out);
        value->destroy();
    }
    if (stream.currentInputPtr() < octets.size())
        return "! trailing " + std::to_string(stream.currentInputPtr());
    return "=" + out.str();
}

int main(int argc, char **argv)
{
    orb = ORB_init(argc, argv);
    Object_var found = orb->resolve_initial_references("DynAnyFactory");
    factory = DynamicAny::DynAnyFactory::_narrow(found);
    for (std::string line; std::getline(std::cin, line);) {
        std::istringstream in(line);
        char what = next<char>(in);
        bool is_little = next<int>(in);
        ULong at = next<ULong>(in);
        try {
            std::cout << (what == 'm' ? sent(in, is_little, at) : read(in, is_little, at)) << std::endl;
        } catch (...) {
            std::cout << (what == 'm' ? "! value" : "! body") << std::endl;
        }
    }
    return 0;
}
