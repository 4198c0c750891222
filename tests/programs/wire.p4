#include <core.p4>
#include <v1model.p4>
struct metadata { }
struct headers { }
parser WireParser(packet_in packet, out headers hdr, inout metadata meta,
    inout standard_metadata_t standard_metadata) { state start { transition accept; } }
control WireVerify(inout headers hdr, inout metadata meta) { apply { } }
control WireIngress(inout headers hdr, inout metadata meta,
    inout standard_metadata_t standard_metadata) {
  apply {
    standard_metadata.egress_spec = 2;
  }
}
control WireEgress(inout headers hdr, inout metadata meta,
    inout standard_metadata_t standard_metadata) { apply {  } }
control WireCompute(inout headers hdr, inout metadata meta) { apply { } }
control WireDeparser(packet_out packet, in headers hdr) { apply { } }
V1Switch(WireParser(), WireVerify(), WireIngress(), WireEgress(), WireCompute(),
  WireDeparser()) main;
