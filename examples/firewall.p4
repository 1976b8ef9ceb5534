// A stateful firewall: a connection is opened from inside, and only then may the outside answer. Port 1 is inside, port 2 outside.
#include <core.p4>
#include <rp.p4>

typedef bit<8> step_t;

const bit<16> IPV4 = 0x0800;
const bit<8> TCP = 6;
const bit<16> INSIDE = 1;
const bit<16> OUTSIDE = 2;
const step_t CLOSED = 0;
const step_t ASKED = 1;    // the inside sent a SYN
const step_t OPEN = 2;     // the outside answered it

header ethernet_t { bit<48> to; bit<48> from; bit<16> kind; }
header ipv4_t { bit<72> front; bit<8> protocol; bit<16> sum; bit<32> source; bit<32> target; }
header tcp_t {
  bit<16> source; bit<16> target; bit<64> numbers;
  bit<10> length; bit<1> urg; bit<1> ack; bit<1> psh; bit<1> rst; bit<1> syn; bit<1> fin;
}
struct headers { ethernet_t ethernet; ipv4_t ip; tcp_t tcp; }
struct locals { step_t step; bit<32> near; bit<32> far; bit<16> near_port; bit<16> far_port; bool inside; }

parser Take(packet_in packet, out headers h, inout locals m, inout std_t std) {
  state start {
    packet.extract(h.ethernet);
    m.inside = std.in_port == INSIDE;
    transition select(h.ethernet.kind) { IPV4: ipv4; default: accept; }
  }
  state ipv4 {
    packet.extract(h.ip);
    transition select(h.ip.protocol) { TCP: tcp; default: accept; }
  }
  state tcp { packet.extract(h.tcp); transition accept; }
}

control Guard(inout headers h, inout locals m, inout std_t std) {
  FlowCell<step_t>() step;   // where the connection stands

  action move(step_t next) { step.write(next); }
  action refuse() { std.drop = 1; }

  // what a packet does to a connection, by its flags and the side that it comes from
  table moves {
    key = { m.step : exact; h.tcp.syn : ternary; h.tcp.ack : ternary; h.tcp.rst : ternary; h.tcp.fin : ternary; std.in_port : ternary; }
    actions = { move; refuse; NoAction; }
    const default_action = refuse();
    const entries = {
      (CLOSED, 1, 0, 0, _, INSIDE) : move(ASKED);
      (ASKED, 1, 1, 0, _, OUTSIDE) : move(OPEN);
      (ASKED, _, _, 0, _, INSIDE) : NoAction();
      (OPEN, _, _, 1, _, _) : move(CLOSED);
      (OPEN, _, _, _, 1, _) : move(CLOSED);
      (OPEN, _, _, _, _, _) : NoAction();
    }
  }

  apply {
    std.out_port = m.inside ? OUTSIDE : INSIDE;
    // both directions of a connection are one flow
    m.near = m.inside ? h.ip.source : h.ip.target;
    m.far = m.inside ? h.ip.target : h.ip.source;
    m.near_port = m.inside ? h.tcp.source : h.tcp.target;
    m.far_port = m.inside ? h.tcp.target : h.tcp.source;
    if (h.tcp.isValid()) {
      flow_key(m.near ++ m.far ++ m.near_port ++ m.far_port);
      m.step = step.read();
      moves.apply();
    } else {
      std.drop = 1;
    }
  }
}

control Give(packet_out packet, in headers h) {
  apply { packet.emit(h.ethernet); packet.emit(h.ip); packet.emit(h.tcp); }
}

RpSwitch(Take(), Guard(), Give()) main;
