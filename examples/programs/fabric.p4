/* Forwards IPv4 by the longest prefix, but first by `steer`, which has ways for what comes by one port. It counts what comes
   by each port, and tells where a packet without a route comes from and goes to. */
#include <core.p4>
#include <v1model.p4>

const bit<16> TYPE_IPV4 = 0x800;

header ethernet_t {
  bit<48> dst;
  bit<48> src;
  bit<16> type;
}

header ipv4_t {
  bit<4> version;
  bit<4> ihl;
  bit<8> diffserv;
  bit<16> total_length;
  bit<16> identification;
  bit<3> flags;
  bit<13> offset;
  bit<8> ttl;
  bit<8> protocol;
  bit<16> checksum;
  bit<32> src;
  bit<32> dst;
}

struct metadata { }

struct headers {
  ethernet_t ethernet;
  ipv4_t ipv4;
}

parser FabricParser(packet_in packet, out headers hdr, inout metadata meta,
    inout standard_metadata_t standard_metadata) {
  state start {
    packet.extract(hdr.ethernet);
    transition select(hdr.ethernet.type) {
      TYPE_IPV4: parse_ipv4;
      default: accept;
    }
  }
  state parse_ipv4 {
    packet.extract(hdr.ipv4);
    transition accept;
  }
}

control FabricVerify(inout headers hdr, inout metadata meta) {
  apply {
    verify_checksum(hdr.ipv4.isValid(), { hdr.ipv4.version, hdr.ipv4.ihl, hdr.ipv4.diffserv,
      hdr.ipv4.total_length, hdr.ipv4.identification, hdr.ipv4.flags, hdr.ipv4.offset,
      hdr.ipv4.ttl, hdr.ipv4.protocol, hdr.ipv4.src, hdr.ipv4.dst },
      hdr.ipv4.checksum, HashAlgorithm.csum16);
  }
}

control FabricIngress(inout headers hdr, inout metadata meta,
    inout standard_metadata_t standard_metadata) {
  register<bit<32>>(8) seen;
  bit<32> count = 0;
  action drop() {
    mark_to_drop(standard_metadata);
  }
  action route(bit<48> next, bit<9> port) {
    standard_metadata.egress_spec = port;
    hdr.ethernet.src = hdr.ethernet.dst;
    hdr.ethernet.dst = next;
    hdr.ipv4.ttl = hdr.ipv4.ttl - 1;
  }
  table steer {
    key = { standard_metadata.ingress_port: exact; hdr.ipv4.dst: lpm; }
    actions = { route; NoAction; }
    default_action = NoAction();
  }
  table routes {
    key = { hdr.ipv4.dst: lpm; }
    actions = { route; drop; }
    default_action = drop();
  }
  apply {
    seen.read(count, (bit<32>) standard_metadata.ingress_port);
    count = count + 1;
    seen.write((bit<32>) standard_metadata.ingress_port, count);
    if (!hdr.ipv4.isValid() || standard_metadata.checksum_error == 1 || hdr.ipv4.ttl <= 1) {
      drop();
    } else {
      if (steer.apply().miss) {
        if (routes.apply().miss) {
          digest(1, { hdr.ipv4.src, hdr.ipv4.dst });
        }
      }
    }
  }
}

control FabricEgress(inout headers hdr, inout metadata meta,
    inout standard_metadata_t standard_metadata) {
  apply { }
}

control FabricCompute(inout headers hdr, inout metadata meta) {
  apply {
    update_checksum(hdr.ipv4.isValid(), { hdr.ipv4.version, hdr.ipv4.ihl, hdr.ipv4.diffserv,
      hdr.ipv4.total_length, hdr.ipv4.identification, hdr.ipv4.flags, hdr.ipv4.offset,
      hdr.ipv4.ttl, hdr.ipv4.protocol, hdr.ipv4.src, hdr.ipv4.dst },
      hdr.ipv4.checksum, HashAlgorithm.csum16);
  }
}

control FabricDeparser(packet_out packet, in headers hdr) {
  apply {
    packet.emit(hdr.ethernet);
    packet.emit(hdr.ipv4);
  }
}

V1Switch(FabricParser(), FabricVerify(), FabricIngress(), FabricEgress(), FabricCompute(),
  FabricDeparser()) main;
