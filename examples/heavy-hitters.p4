// A sketch of heavy hitters: for each tenant, about how many packets each source sent. Two rows of 64 counters share what
// sources collide in; the smaller of a source's two counters is the estimate. It may lose a little, so it is for snapshot mode.
#include <core.p4>
#include <rp.p4>

const bit<32> HEAVY = 4;

header packet_t { bit<8> tenant; bit<32> source; }
header note_t { bit<32> estimate; bit<8> heavy; }
struct headers { note_t note; packet_t packet; }
struct locals { bit<16> i; bit<16> j; bit<32> a; bit<32> b; bit<32> best; }

parser Take(packet_in packet, out headers h, inout locals m, inout std_t std) {
  state start { packet.extract(h.packet); transition accept; }
}

control Count(inout headers h, inout locals m, inout std_t std) {
  FlowArray<bit<32>>(64) row;
  FlowArray<bit<32>>(64) other;
  FlowCell<bit<32>>() top;         // the heaviest source so far
  FlowCell<bit<32>>() top_count;

  apply {
    std.out_port = std.in_port;
    m.i = (bit<16>) h.packet.source[5:0];
    m.j = (bit<16>) (h.packet.source ^ (h.packet.source >> 7))[10:5];
    flow_key(h.packet.tenant);
    m.a = row.read(m.i);
    m.b = other.read(m.j);
    m.a = m.a |+| 1;
    m.b = m.b |+| 1;
    row.write(m.i, m.a);
    other.write(m.j, m.b);
    m.a = m.a < m.b ? m.a : m.b;
    m.best = top_count.read();
    if (m.a > m.best) {
      top.write(h.packet.source);
      top_count.write(m.a);
    }
    h.note.setValid();
    h.note.estimate = m.a;
    h.note.heavy = m.a >= HEAVY ? 8w1 : 8w0;
  }
}

control Give(packet_out packet, in headers h) {
  apply { packet.emit(h.note); packet.emit(h.packet); }
}

RpSwitch(Take(), Count(), Give()) main;
