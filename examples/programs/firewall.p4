/* A filter of TCP and UDP over IPv4. A rule matches addresses, protocol, ports and TCP's flags under masks, and of the
   rules that fit the one with the greatest priority counts. What none permits is dropped and told of; what one permits
   goes the way of its destination. */
#include <core.p4>
#include <v1model.p4>

const bit<16> TYPE_IPV4 = 0x800;
const bit<8> PROTOCOL_TCP = 6;
const bit<8> PROTOCOL_UDP = 17;

header ethernet_t {
  bit<48> dst;
  bit<48> src;
  bit<16> type;
}

header ipv4_t {
  bit<4> version;
  bit<4> ihl;
  bit<8> diffserv;
  bit<16> total_length;
  bit<16> identification;
  bit<3> flags;
  bit<13> offset;
  bit<8> ttl;
  bit<8> protocol;
  bit<16> checksum;
  bit<32> src;
  bit<32> dst;
}

header tcp_t {
  bit<16> src;
  bit<16> dst;
  bit<32> sequence;
  bit<32> acknowledged;
  bit<4> offset;
  bit<4> reserved;
  bit<8> flags;
  bit<16> window;
  bit<16> checksum;
  bit<16> urgent;
}

header udp_t {
  bit<16> src;
  bit<16> dst;
  bit<16> length;
  bit<16> checksum;
}

// The ports of TCP or UDP and the flags of TCP, 0 where the packet has none.
struct metadata {
  bit<16> src_port;
  bit<16> dst_port;
  bit<8> flags;
  bool permitted;
}

struct headers {
  ethernet_t ethernet;
  ipv4_t ipv4;
  tcp_t tcp;
  udp_t udp;
}

parser FirewallParser(packet_in packet, out headers hdr, inout metadata meta,
    inout standard_metadata_t standard_metadata) {
  state start {
    packet.extract(hdr.ethernet);
    transition select(hdr.ethernet.type) {
      TYPE_IPV4: parse_ipv4;
      default: accept;
    }
  }
  state parse_ipv4 {
    packet.extract(hdr.ipv4);
    transition select(hdr.ipv4.protocol) {
      PROTOCOL_TCP: parse_tcp;
      PROTOCOL_UDP: parse_udp;
      default: accept;
    }
  }
  state parse_tcp {
    packet.extract(hdr.tcp);
    meta.src_port = hdr.tcp.src;
    meta.dst_port = hdr.tcp.dst;
    meta.flags = hdr.tcp.flags;
    transition accept;
  }
  state parse_udp {
    packet.extract(hdr.udp);
    meta.src_port = hdr.udp.src;
    meta.dst_port = hdr.udp.dst;
    transition accept;
  }
}

control FirewallVerify(inout headers hdr, inout metadata meta) {
  apply {
    verify_checksum(hdr.ipv4.isValid(), { hdr.ipv4.version, hdr.ipv4.ihl, hdr.ipv4.diffserv,
      hdr.ipv4.total_length, hdr.ipv4.identification, hdr.ipv4.flags, hdr.ipv4.offset,
      hdr.ipv4.ttl, hdr.ipv4.protocol, hdr.ipv4.src, hdr.ipv4.dst },
      hdr.ipv4.checksum, HashAlgorithm.csum16);
  }
}

control FirewallIngress(inout headers hdr, inout metadata meta,
    inout standard_metadata_t standard_metadata) {
  action drop() {
    mark_to_drop(standard_metadata);
  }
  action permit() {
    meta.permitted = true;
  }
  action deny() {
    meta.permitted = false;
  }
  action route(bit<48> next, bit<9> port) {
    standard_metadata.egress_spec = port;
    hdr.ethernet.src = hdr.ethernet.dst;
    hdr.ethernet.dst = next;
    hdr.ipv4.ttl = hdr.ipv4.ttl - 1;
  }
  table rules {
    key = {
      hdr.ipv4.src: ternary;
      hdr.ipv4.dst: ternary;
      hdr.ipv4.protocol: ternary;
      meta.dst_port: ternary;
      meta.flags: ternary;
    }
    actions = { permit; deny; }
    default_action = deny();
  }
  table ways {
    key = { hdr.ipv4.dst: ternary; }
    actions = { route; drop; }
    default_action = drop();
  }
  apply {
    if (!hdr.ipv4.isValid() || standard_metadata.checksum_error == 1 || hdr.ipv4.ttl <= 1) {
      drop();
    } else {
      rules.apply();
      if (meta.permitted) {
        ways.apply();
      } else {
        digest(1, { hdr.ipv4.src, hdr.ipv4.dst, meta.dst_port });
        drop();
      }
    }
  }
}

control FirewallEgress(inout headers hdr, inout metadata meta,
    inout standard_metadata_t standard_metadata) {
  apply { }
}

control FirewallCompute(inout headers hdr, inout metadata meta) {
  apply {
    update_checksum(hdr.ipv4.isValid(), { hdr.ipv4.version, hdr.ipv4.ihl, hdr.ipv4.diffserv,
      hdr.ipv4.total_length, hdr.ipv4.identification, hdr.ipv4.flags, hdr.ipv4.offset,
      hdr.ipv4.ttl, hdr.ipv4.protocol, hdr.ipv4.src, hdr.ipv4.dst },
      hdr.ipv4.checksum, HashAlgorithm.csum16);
  }
}

control FirewallDeparser(packet_out packet, in headers hdr) {
  apply {
    packet.emit(hdr.ethernet);
    packet.emit(hdr.ipv4);
    packet.emit(hdr.tcp);
    packet.emit(hdr.udp);
  }
}

V1Switch(FirewallParser(), FirewallVerify(), FirewallIngress(), FirewallEgress(), FirewallCompute(),
  FirewallDeparser()) main;
