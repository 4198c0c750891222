header h_t { bit<8> a; bit<32> b; bit<48> c; bit<128> d; }
struct metadata { bool g; bit<1> one; bit<9> p; }
struct headers { h_t h; }
parser P(packet_in packet, out headers hdr, inout metadata meta, inout standard_metadata_t standard_metadata) { state start { transition accept; } }
control V(inout headers hdr, inout metadata meta) { apply { } }
control I(inout headers hdr, inout metadata meta, inout standard_metadata_t standard_metadata) {
  action go(bit<9> p, bool g) { standard_metadata.egress_spec = p; meta.g = g; }
  action nop() { }
  table x { key = { hdr.h.a: exact; meta.g: exact; meta.one: exact; } actions = { go; nop; NoAction; } }
  table l { key = { hdr.h.a: exact; hdr.h.b: lpm; } actions = { go; nop; } const default_action = nop(); }
  table t { key = { hdr.h.c: ternary; hdr.h.d: exact; } actions = { go; NoAction; } default_action = go(3, true); }
  table z { actions = { go; nop; } }
  apply { x.apply(); l.apply(); t.apply(); z.apply(); } }
control E(inout headers hdr, inout metadata meta, inout standard_metadata_t standard_metadata) {
  action go() { } table x { key = { hdr.h.c: lpm; } actions = { go; } } apply { x.apply(); } }
control K(inout headers hdr, inout metadata meta) { apply { } }
control D(packet_out packet, in headers hdr) { apply { } }
V1Switch(P(), V(), I(), E(), K(), D()) main;
