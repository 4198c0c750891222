/* Bridges by VLAN and MAC address. A frame without a tag gets that of its port, and by some ports frames leave without
   theirs. A frame of no VLAN is dropped, and so is one to an address that is not known, of which the control plane is told. */
#include <core.p4>
#include <v1model.p4>

const bit<16> TYPE_VLAN = 0x8100;

header ethernet_t {
  bit<48> dst;
  bit<48> src;
  bit<16> type;
}

header vlan_t {
  bit<3> priority;
  bit<1> droppable;
  bit<12> id;
  bit<16> type;
}

// The frame's VLAN, which stays when the tag is taken off.
struct metadata {
  bit<12> vlan;
}

struct headers {
  ethernet_t ethernet;
  vlan_t vlan;
}

parser VlanParser(packet_in packet, out headers hdr, inout metadata meta,
    inout standard_metadata_t standard_metadata) {
  state start {
    packet.extract(hdr.ethernet);
    transition select(hdr.ethernet.type) {
      TYPE_VLAN: parse_vlan;
      default: accept;
    }
  }
  state parse_vlan {
    packet.extract(hdr.vlan);
    meta.vlan = hdr.vlan.id;
    transition accept;
  }
}

control VlanVerify(inout headers hdr, inout metadata meta) {
  apply { }
}

control VlanIngress(inout headers hdr, inout metadata meta,
    inout standard_metadata_t standard_metadata) {
  action drop() {
    mark_to_drop(standard_metadata);
  }
  action tag(bit<12> id) {
    hdr.vlan.setValid();
    hdr.vlan.priority = 0;
    hdr.vlan.droppable = 0;
    hdr.vlan.id = id;
    hdr.vlan.type = hdr.ethernet.type;
    hdr.ethernet.type = TYPE_VLAN;
    meta.vlan = id;
  }
  action forward(bit<9> port) {
    standard_metadata.egress_spec = port;
  }
  table tags {
    key = { standard_metadata.ingress_port: exact; }
    actions = { tag; NoAction; }
    default_action = NoAction();
  }
  table bridge {
    key = {
      meta.vlan: exact;
      hdr.ethernet.dst: exact;
    }
    actions = { forward; drop; }
    default_action = drop();
  }
  apply {
    if (hdr.ethernet.isValid() && !hdr.vlan.isValid()) {
      tags.apply();
    }
    if (hdr.vlan.isValid()) {
      if (bridge.apply().miss) {
        digest(3, { meta.vlan, hdr.ethernet.dst });
      }
    } else {
      drop();
    }
  }
}

control VlanEgress(inout headers hdr, inout metadata meta,
    inout standard_metadata_t standard_metadata) {
  action untag() {
    hdr.ethernet.type = hdr.vlan.type;
    hdr.vlan.setInvalid();
  }
  table plain {
    key = { standard_metadata.egress_port: exact; }
    actions = { untag; NoAction; }
    default_action = NoAction();
  }
  apply {
    plain.apply();
  }
}

control VlanCompute(inout headers hdr, inout metadata meta) {
  apply { }
}

control VlanDeparser(packet_out packet, in headers hdr) {
  apply {
    packet.emit(hdr.ethernet);
    packet.emit(hdr.vlan);
  }
}

V1Switch(VlanParser(), VlanVerify(), VlanIngress(), VlanEgress(), VlanCompute(), VlanDeparser()) main;
