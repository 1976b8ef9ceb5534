// A load balancer that keeps connections: a client's connection goes to one of four servers, and stays there while the weights change.
#include <core.p4>
#include <rp.p4>

const bit<16> SERVICE = 443;

header ipv4_t { bit<72> front; bit<8> protocol; bit<16> sum; bit<32> source; bit<32> target; }
header tcp_t { bit<16> source; bit<16> target; bit<64> numbers; bit<10> length; bit<3> some; bit<1> rst; bit<1> syn; bit<1> fin; }
struct headers { ipv4_t ip; tcp_t tcp; }
struct locals { bit<8> server; bit<8> hint; }

parser Take(packet_in packet, out headers h, inout locals m, inout std_t std) {
  state start {
    packet.extract(h.ip);
    transition select(h.ip.protocol) { 6: tcp; default: reject; }
  }
  state tcp { packet.extract(h.tcp); transition accept; }
}

control Balance(inout headers h, inout locals m, inout std_t std) {
  FlowCell<bit<8>>() server;   // the connection's server, 1 to 4, or 0

  action go(bit<8> last, bit<16> port) { h.ip.target[7:0] = last; std.out_port = port; }
  action refuse() { std.drop = 1; }
  action choose(bit<8> which) { m.hint = which; }

  // which server a new connection gets, by the last bits of the client's port: change it as you like, connections stay
  table weights {
    key = { h.tcp.source[2:0] : ternary; }
    actions = { choose; }
    const entries = {
      0 &&& 4 : choose(1);
      4 &&& 6 : choose(2);
      6 &&& 7 : choose(3);
      _ : choose(4);
    }
  }

  table servers {
    key = { m.server : exact; }
    actions = { go; refuse; }
    const default_action = refuse();
    const entries = {
      1 : go(11, 1);
      2 : go(12, 2);
      3 : go(13, 3);
      4 : go(14, 4);
    }
  }

  apply {
    weights.apply();
    if (h.tcp.target == SERVICE) {
      flow_key(h.ip.source ++ h.tcp.source);
      m.server = server.read();
      // a SYN opens a connection; without one a packet of an unknown connection finds no server
      if (h.tcp.syn == 1 && m.server == 0) {
        m.server = m.hint;
        server.write(m.server);
      }
      servers.apply();
      if (m.server != 0 && (h.tcp.fin == 1 || h.tcp.rst == 1)) server.write(0);
    } else {
      std.drop = 1;
    }
  }
}

control Give(packet_out packet, in headers h) {
  apply { packet.emit(h.ip); packet.emit(h.tcp); }
}

RpSwitch(Take(), Balance(), Give()) main;
