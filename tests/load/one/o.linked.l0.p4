#include <core.p4>
#include <v1model.p4>

register<bit<32> >(1) hydra_rejects;

header hydra_tele_t {
    bit<8> hydra_mark;
    bit<8> hydra_v_0_0;
    bit<8> hydra_v_1_c;
    bit<16> hydra_v_1_0;
    bit<16> hydra_v_1_1;
    bit<16> hydra_v_1_2;
    bit<16> hydra_v_1_3;
}

register<bit<32> >(1) hydra_s_seen;

const bit<16> hydra_switch = 16w0;

const bit<16> TYPE_IPV4 = 2048;

typedef bit<9> egressSpec_t;

typedef bit<48> macAddr_t;

typedef bit<32> ip4Addr_t;

header ethernet_t {
    macAddr_t dstAddr;
    macAddr_t srcAddr;
    bit<16> etherType;
}

header ipv4_t {
    bit<4> version;
    bit<4> ihl;
    bit<8> diffserv;
    bit<16> totalLen;
    bit<16> identification;
    bit<3> flags;
    bit<13> fragOffset;
    bit<8> ttl;
    bit<8> protocol;
    bit<16> hdrChecksum;
    ip4Addr_t srcAddr;
    ip4Addr_t dstAddr;
}

struct metadata {
    bit<32> hydra_length;
}

struct headers {
    hydra_tele_t hydra_tele;
    ethernet_t ethernet;
    ipv4_t ipv4;
}

parser MyParser(packet_in packet, out headers hdr, inout metadata meta, inout standard_metadata_t standard_metadata) {
    state start {
        meta.hydra_length = standard_metadata.packet_length;
        transition select(standard_metadata.ingress_port) {
            11: hydra_taken;
            12: hydra_taken;
            default: hydra_start;
        }
    }
    state hydra_taken {
        packet.extract(hdr.hydra_tele);
        meta.hydra_length = (standard_metadata.packet_length - 11);
        transition hydra_start;
    }
    state hydra_start {
        transition parse_ethernet;
    }
    state parse_ethernet {
        packet.extract(hdr.ethernet);
        transition select(hdr.ethernet.etherType) {
            TYPE_IPV4: parse_ipv4;
            default: accept;
        }
    }
    state parse_ipv4 {
        packet.extract(hdr.ipv4);
        transition accept;
    }
}

control MyVerifyChecksum(inout headers hdr, inout metadata meta) {
    apply { }
}

control MyIngress(inout headers hdr, inout metadata meta, inout standard_metadata_t standard_metadata) {
    bit<8> hydra_f_0;
    bit<9> hydra_k_0_0;
    action hydra_a_0(bit<8> hydra_value) {
        hydra_f_0 = hydra_value;
    }
    table hydra_t_0 {
        key = {
            hydra_k_0_0: exact;
        }
        actions = {
            hydra_a_0;
            NoAction;
        }
        default_action = NoAction();
    }
    action drop() {
        mark_to_drop(standard_metadata);
    }
    action ipv4_forward(macAddr_t dstAddr, egressSpec_t port) {
        standard_metadata.egress_spec = port;
        hdr.ethernet.srcAddr = hdr.ethernet.dstAddr;
        hdr.ethernet.dstAddr = dstAddr;
        hdr.ipv4.ttl = (hdr.ipv4.ttl - 1);
    }
    table ipv4_lpm {
        key = {
            hdr.ipv4.dstAddr: lpm;
        }
        actions = {
            ipv4_forward;
            drop;
            NoAction;
        }
        size = 1024;
        default_action = drop();
    }
    apply {
        if ((!((standard_metadata.ingress_port == 11) || (standard_metadata.ingress_port == 12)))) {
            hdr.hydra_tele.setValid();
            hdr.hydra_tele.hydra_mark = 8w72;
            hydra_f_0 = 8w0;
            hydra_k_0_0 = standard_metadata.ingress_port;
            hydra_t_0.apply();
            hdr.hydra_tele.hydra_v_0_0 = hydra_f_0;
        }
        if (hdr.ipv4.isValid()) {
            ipv4_lpm.apply();
        }
    }
}

control MyEgress(inout headers hdr, inout metadata meta, inout standard_metadata_t standard_metadata) {
    bool hydra_first;
    bool hydra_last;
    bool hydra_rejected;
    bit<32> hydra_f_1;
    bit<8> hydra_f_2;
    bit<9> hydra_k_2_0;
    bit<8> hydra_f_3;
    bit<9> hydra_k_3_0;
    action hydra_a_2(bit<8> hydra_value) {
        hydra_f_2 = hydra_value;
    }
    action hydra_a_3(bit<8> hydra_value) {
        hydra_f_3 = hydra_value;
    }
    table hydra_t_2 {
        key = {
            hydra_k_2_0: exact;
        }
        actions = {
            hydra_a_2;
            NoAction;
        }
        default_action = NoAction();
    }
    table hydra_t_3 {
        key = {
            hydra_k_3_0: exact;
        }
        actions = {
            hydra_a_3;
            NoAction;
        }
        default_action = NoAction();
    }
    apply {
        if ((standard_metadata.egress_spec != 511)) {
            hydra_first = (!((standard_metadata.ingress_port == 11) || (standard_metadata.ingress_port == 12)));
            hydra_last = (!((standard_metadata.egress_port == 11) || (standard_metadata.egress_port == 12)));
            hydra_s_seen.read(hydra_f_1, 1w0);
            hydra_s_seen.write(1w0, (hydra_f_1 + 1));
            if ((hdr.hydra_tele.hydra_v_1_c < 8w4)) {
                hdr.hydra_tele.hydra_v_1_3 = hydra_switch;
                if ((hdr.hydra_tele.hydra_v_1_c == 8w0)) {
                    hdr.hydra_tele.hydra_v_1_0 = hdr.hydra_tele.hydra_v_1_3;
                }
                if ((hdr.hydra_tele.hydra_v_1_c == 8w1)) {
                    hdr.hydra_tele.hydra_v_1_1 = hdr.hydra_tele.hydra_v_1_3;
                }
                if ((hdr.hydra_tele.hydra_v_1_c == 8w2)) {
                    hdr.hydra_tele.hydra_v_1_2 = hdr.hydra_tele.hydra_v_1_3;
                }
                if ((hdr.hydra_tele.hydra_v_1_c < 8w3)) {
                    hdr.hydra_tele.hydra_v_1_3 = 16w0;
                }
                hdr.hydra_tele.hydra_v_1_c = (hdr.hydra_tele.hydra_v_1_c + 8w1);
            }
            if (hydra_last) {
                hydra_rejected = false;
                hydra_f_2 = 8w0;
                hydra_k_2_0 = standard_metadata.egress_port;
                hydra_t_2.apply();
                if ((hydra_f_2 != hdr.hydra_tele.hydra_v_0_0)) {
                    hydra_rejected = true;
                    hydra_f_3 = 8w0;
                    hydra_k_3_0 = standard_metadata.egress_port;
                    hydra_t_3.apply();
                    digest(32w1213809746, { 16w0, hdr.hydra_tele.hydra_v_0_0, hydra_f_3 });
                }
            }
            if (hydra_last) {
                hdr.hydra_tele.setInvalid();
                if (hydra_rejected) {
                    bit<32> hydra_count;
                    hydra_rejects.read(hydra_count, 0);
                    hydra_rejects.write(0, (hydra_count + 1));
                    mark_to_drop(standard_metadata);
                }
            }
        }
    }
}

control MyComputeChecksum(inout headers hdr, inout metadata meta) {
    apply {
        update_checksum(hdr.ipv4.isValid(), { hdr.ipv4.version, hdr.ipv4.ihl, hdr.ipv4.diffserv, hdr.ipv4.totalLen, hdr.ipv4.identification, hdr.ipv4.flags, hdr.ipv4.fragOffset, hdr.ipv4.ttl, hdr.ipv4.protocol, hdr.ipv4.srcAddr, hdr.ipv4.dstAddr }, hdr.ipv4.hdrChecksum, HashAlgorithm.csum16);
    }
}

control MyDeparser(packet_out packet, in headers hdr) {
    apply {
        packet.emit(hdr.hydra_tele);
        packet.emit(hdr.ethernet);
        packet.emit(hdr.ipv4);
    }
}

V1Switch(MyParser(), MyVerifyChecksum(), MyIngress(), MyEgress(), MyComputeChecksum(), MyDeparser()) main;
