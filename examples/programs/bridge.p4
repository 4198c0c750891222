/* Forwards Ethernet frames of virtual networks, by network and destination. A frame without a tag is of the network of the port
   at which it comes, and gets a tag; at ports that are plain the tag is taken off. */
#include <core.p4>
#include <v1model.p4>

const bit<16> TYPE_VLAN = 0x8100;

header ethernet_t {
  bit<48> dst;
  bit<48> src;
  bit<16> type;
}

header vlan_t {
  bit<3> priority;
  bit<1> eligible;
  bit<12> id;
  bit<16> type;
}

struct metadata { }

struct headers {
  ethernet_t ethernet;
  vlan_t vlan;
}

parser BridgeParser(packet_in packet, out headers hdr, inout metadata meta,
    inout standard_metadata_t standard_metadata) {
  state start {
    packet.extract(hdr.ethernet);
    transition select(hdr.ethernet.type) {
      TYPE_VLAN: parse_vlan;
      default: accept;
    }
  }
  state parse_vlan {
    packet.extract(hdr.vlan);
    transition accept;
  }
}

control BridgeVerify(inout headers hdr, inout metadata meta) {
  apply { }
}

control BridgeIngress(inout headers hdr, inout metadata meta,
    inout standard_metadata_t standard_metadata) {
  action drop() {
    mark_to_drop(standard_metadata);
  }
  action tag(bit<12> id) {
    hdr.vlan.setValid();
    hdr.vlan.priority = 0;
    hdr.vlan.eligible = 0;
    hdr.vlan.id = id;
    hdr.vlan.type = hdr.ethernet.type;
    hdr.ethernet.type = TYPE_VLAN;
  }
  action forward(bit<9> port) {
    standard_metadata.egress_spec = port;
  }
  table access {
    key = { standard_metadata.ingress_port: exact; }
    actions = { tag; drop; }
    default_action = drop();
  }
  table stations {
    key = { hdr.vlan.id: exact; hdr.ethernet.dst: exact; }
    actions = { forward; drop; }
    default_action = drop();
  }
  apply {
    if (!hdr.vlan.isValid()) {
      access.apply();
    }
    if (hdr.vlan.isValid()) {
      stations.apply();
    }
  }
}

control BridgeEgress(inout headers hdr, inout metadata meta,
    inout standard_metadata_t standard_metadata) {
  action untag() {
    hdr.ethernet.type = hdr.vlan.type;
    hdr.vlan.setInvalid();
  }
  table plain {
    key = { standard_metadata.egress_port: exact; }
    actions = { untag; NoAction; }
    default_action = NoAction();
  }
  apply {
    plain.apply();
  }
}

control BridgeCompute(inout headers hdr, inout metadata meta) {
  apply { }
}

control BridgeDeparser(packet_out packet, in headers hdr) {
  apply {
    packet.emit(hdr.ethernet);
    packet.emit(hdr.vlan);
  }
}

V1Switch(BridgeParser(), BridgeVerify(), BridgeIngress(), BridgeEgress(), BridgeCompute(),
  BridgeDeparser()) main;
