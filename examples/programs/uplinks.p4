/* Leaves with two uplinks. What is for a host here goes straight to it. All else goes up: a flow keeps the uplink that its
   first packet got, of which the control plane is told, and first packets get the two by turns. */
#include <core.p4>
#include <v1model.p4>

const bit<16> TYPE_IPV4 = 0x800;
const bit<8> PROTOCOL_TCP = 6;
const bit<8> PROTOCOL_UDP = 17;

header ethernet_t {
  bit<48> dst;
  bit<48> src;
  bit<16> type;
}

header ipv4_t {
  bit<4> version;
  bit<4> ihl;
  bit<8> diffserv;
  bit<16> total_length;
  bit<16> identification;
  bit<3> flags;
  bit<13> offset;
  bit<8> ttl;
  bit<8> protocol;
  bit<16> checksum;
  bit<32> src;
  bit<32> dst;
}

// TCP and UDP begin with these.
header ports_t {
  bit<16> src;
  bit<16> dst;
}

struct metadata {
  bit<8> uplink;
}

struct headers {
  ethernet_t ethernet;
  ipv4_t ipv4;
  ports_t ports;
}

parser UplinksParser(packet_in packet, out headers hdr, inout metadata meta,
    inout standard_metadata_t standard_metadata) {
  state start {
    packet.extract(hdr.ethernet);
    transition select(hdr.ethernet.type) {
      TYPE_IPV4: parse_ipv4;
      default: accept;
    }
  }
  state parse_ipv4 {
    packet.extract(hdr.ipv4);
    transition select(hdr.ipv4.protocol) {
      PROTOCOL_TCP: parse_ports;
      PROTOCOL_UDP: parse_ports;
      default: accept;
    }
  }
  state parse_ports {
    packet.extract(hdr.ports);
    transition accept;
  }
}

control UplinksVerify(inout headers hdr, inout metadata meta) {
  apply {
    verify_checksum(hdr.ipv4.isValid(), { hdr.ipv4.version, hdr.ipv4.ihl, hdr.ipv4.diffserv,
      hdr.ipv4.total_length, hdr.ipv4.identification, hdr.ipv4.flags, hdr.ipv4.offset,
      hdr.ipv4.ttl, hdr.ipv4.protocol, hdr.ipv4.src, hdr.ipv4.dst },
      hdr.ipv4.checksum, HashAlgorithm.csum16);
  }
}

control UplinksIngress(inout headers hdr, inout metadata meta,
    inout standard_metadata_t standard_metadata) {
  // The uplink of each flow, 1 or 2, and 0 where it has none yet.
  register<bit<8>>(16) kept;
  // The uplink of the next flow that has none, less 1.
  register<bit<1>>(1) turn;
  bit<1> next = 0;
  bit<32> flow = 0;
  action drop() {
    mark_to_drop(standard_metadata);
  }
  action send(bit<48> target, bit<9> port) {
    standard_metadata.egress_spec = port;
    hdr.ethernet.src = hdr.ethernet.dst;
    hdr.ethernet.dst = target;
    hdr.ipv4.ttl = hdr.ipv4.ttl - 1;
  }
  action deliver(bit<48> target, bit<9> port) {
    standard_metadata.egress_spec = port;
    hdr.ethernet.src = hdr.ethernet.dst;
    hdr.ethernet.dst = target;
    hdr.ipv4.ttl = hdr.ipv4.ttl - 1;
    exit;
  }
  table down {
    key = { hdr.ipv4.dst: lpm; }
    actions = { deliver; NoAction; }
    default_action = NoAction();
  }
  table up {
    key = { meta.uplink: exact; }
    actions = { send; drop; }
    default_action = drop();
  }
  apply {
    if (!hdr.ipv4.isValid() || standard_metadata.checksum_error == 1 || hdr.ipv4.ttl <= 1) {
      drop();
      exit;
    }
    down.apply();
    flow = (bit<32>) ((hdr.ports.src ^ hdr.ports.dst) & 15);
    kept.read(meta.uplink, flow);
    if (meta.uplink == 0) {
      turn.read(next, 0);
      turn.write(0, next + 1);
      meta.uplink = (bit<8>) next + 1;
      kept.write(flow, meta.uplink);
      digest(2, { hdr.ipv4.src, hdr.ipv4.dst, meta.uplink });
    }
    up.apply();
  }
}

control UplinksEgress(inout headers hdr, inout metadata meta,
    inout standard_metadata_t standard_metadata) {
  apply { }
}

control UplinksCompute(inout headers hdr, inout metadata meta) {
  apply {
    update_checksum(hdr.ipv4.isValid(), { hdr.ipv4.version, hdr.ipv4.ihl, hdr.ipv4.diffserv,
      hdr.ipv4.total_length, hdr.ipv4.identification, hdr.ipv4.flags, hdr.ipv4.offset,
      hdr.ipv4.ttl, hdr.ipv4.protocol, hdr.ipv4.src, hdr.ipv4.dst },
      hdr.ipv4.checksum, HashAlgorithm.csum16);
  }
}

control UplinksDeparser(packet_out packet, in headers hdr) {
  apply {
    packet.emit(hdr.ethernet);
    packet.emit(hdr.ipv4);
    packet.emit(hdr.ports);
  }
}

V1Switch(UplinksParser(), UplinksVerify(), UplinksIngress(), UplinksEgress(), UplinksCompute(),
  UplinksDeparser()) main;
