// An address translator: each inside host gets an outside address with its first packet, and keeps it.
// Port 1 and 2 lead inside, ports 8 and 9 to two providers.
#include <core.p4>
#include <rp.p4>

typedef bit<32> address_t;

const bit<16> IPV4 = 0x0800;
const address_t POOL = 0xCB007100;  // 203.0.113.0/24, the outside addresses

header ethernet_t { bit<48> to; bit<48> from; bit<16> kind; }
header ipv4_t {
  bit<4> version; bit<4> words; bit<8> service; bit<16> length;
  bit<16> id; bit<3> flags; bit<13> offset;
  bit<8> hops; bit<8> protocol; bit<16> sum;
  address_t source; address_t target;
}
struct headers { ethernet_t ethernet; ipv4_t ip; }
struct locals { address_t outside; bit<32> packets; }

parser Take(packet_in packet, out headers h, inout locals m, inout std_t std) {
  state start {
    packet.extract(h.ethernet);
    transition select(h.ethernet.kind) { IPV4: ipv4; default: accept; }
  }
  state ipv4 { packet.extract(h.ip); transition accept; }
}

control Translate(inout headers h, inout locals m, inout std_t std) {
  FlowCell<address_t>() outside;   // the host's outside address, 0 before its first packet
  FlowCell<bit<32>>() packets;     // how many packets it sent

  action leave(bit<16> port) { std.out_port = port; }
  action refuse() { std.drop = 1; }

  table route {
    key = { h.ip.target : lpm; }
    actions = { leave; refuse; }
    const default_action = refuse();
    const entries = {
      0x0A000000 &&& 0xFF000000 : refuse();
      0xC6336400 &&& 0xFFFFFF00 : leave(8);
      0 &&& 0 : leave(9);
    }
  }

  apply {
    if (h.ip.isValid()) {
      route.apply();
      flow_key(h.ip.source);
      m.outside = outside.read();
      if (m.outside == 0) {
        // the port of the first packet chooses the half of the pool: without the state no later packet could know it
        m.outside = POOL | ((bit<32>) (std.in_port[0:0] ++ h.ip.source[6:0]));
        outside.write(m.outside);
      }
      m.packets = packets.read();
      packets.write(m.packets |+| 1);
      h.ip.source = m.outside;
    } else {
      std.drop = 1;
    }
  }
}

control Give(packet_out packet, in headers h) {
  apply { packet.emit(h.ethernet); packet.emit(h.ip); }
}

RpSwitch(Take(), Translate(), Give()) main;
