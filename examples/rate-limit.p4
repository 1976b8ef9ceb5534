// A limit for each sender: of the packets that it sends in one second the first three go through.
// The language has no clock: a device in front of the switch stamps each packet with its second.
#include <core.p4>
#include <rp.p4>

const bit<32> LIMIT = 3;

header stamp_t { bit<16> second; }
header packet_t { bit<32> source; bit<32> target; }
struct headers { stamp_t stamp; packet_t packet; }
struct locals { bit<16> window; bit<32> count; bit<32> total; }

parser Take(packet_in packet, out headers h, inout locals m, inout std_t std) {
  state start { packet.extract(h.stamp); packet.extract(h.packet); transition accept; }
}

control Limit(inout headers h, inout locals m, inout std_t std) {
  FlowCell<bit<16>>() window;   // the second in which the sender's last packet came
  FlowCell<bit<32>>() count;    // its packets in that second
  FlowCell<bit<32>>() total;    // all its packets

  apply {
    std.out_port = std.in_port ^ 1;
    flow_key(h.packet.source);
    m.window = window.read();
    m.count = count.read();
    m.total = total.read();
    total.write(m.total |+| 1);
    // a stamp that lies behind is counted in the window that is open
    if (h.stamp.second > m.window) {
      m.count = 0;
      window.write(h.stamp.second);
    }
    count.write(m.count |+| 1);
    if (m.count >= LIMIT) std.drop = 1;
  }
}

// the stamp stays behind
control Give(packet_out packet, in headers h) {
  apply { packet.emit(h.packet); }
}

RpSwitch(Take(), Limit(), Give()) main;
