//! Document 02's L6: "one call tells what the next unit is, with its length, and
//! changes nothing; another takes it. Looking and then taking, with nothing
//! between, names the same unit, and refusals and waiting are the same in both,
//! numbers and order."
#![forbid(unsafe_code)]

mod common;

use common::{told, Bench, Random};
use model::{Answer, Command, Draw, Refusal};

/// Looks twice and takes; the one answer. That all is as it was after a look is
/// what its types say; after a take that waits or is refused it is tested too.
fn look_and_take(bench: &mut Bench) -> Answer {
    let before = bench.copy();
    let seen = bench.look();
    assert_eq!(bench.look(), seen);
    assert!(bench.same_as(&before));
    assert_eq!(bench.take(), seen);
    if !matches!(seen, Answer::Unit { .. }) {
        assert!(bench.same_as(&before));
    }
    seen
}

/// Vertices of format 0 have 12 bytes, and the position of format 1 an unknown
/// format; array 12 begins at 1000 and has a stride of 40.
fn bench_at(place: u32) -> Bench {
    let mut bench = Bench::new(256).at(0x1000 + place);
    bench.state.cp.vcd[0] = 0x200;
    bench.state.cp.vat[0][0] = 9;
    bench.state.cp.vat[1][0] = 5 << 1;
    bench.state.cp.bases[12] = 0x1000;
    bench.state.cp.strides[12] = 0x40;
    bench
}

fn open_draw(bench: &mut Bench, format: u8) {
    bench.state.draw = Some(Draw {
        primitive: 2,
        format,
        left: 2,
    });
}

/// The bytes of a unit, its command, and the memory address that it reports.
type Unit = (Vec<u8>, Command, u32);

/// A load of each kind.
fn loads() -> Vec<Unit> {
    let cp_load = Command::CpLoad {
        address: 0x50,
        number: 0x0102_0304,
    };
    let xf_load = Command::XfLoad {
        words: 2,
        address: 0x1056,
    };
    let xf_bytes = [0x10, 0xFF, 0xF1, 0x10, 0x56, 1, 2, 3, 4, 5, 6, 7, 8];
    let indexed = Command::IndexedLoad {
        array: 12,
        index: 3,
        words: 12,
        xf_address: 0xABC,
    };
    let bp_load = Command::BpLoad {
        register: 0x41,
        number: 0x01_0203,
    };
    vec![
        (vec![0x08, 0x50, 1, 2, 3, 4], cp_load, 0),
        (xf_bytes.to_vec(), xf_load, 0),
        (vec![0x20, 0x00, 0x03, 0xBA, 0xBC], indexed, 0x10C0),
        (vec![0x61, 0x41, 1, 2, 3], bp_load, 0),
    ]
}

/// A unit of every kind while no draw is open.
fn units() -> Vec<Unit> {
    let list = Command::CallList {
        address: 0x0102_0304,
        size: 0x0506_0708,
    };
    let head = Command::Draw {
        primitive: 2,
        format: 0,
        count: 0x0102,
    };
    let mut units = loads();
    units.extend([
        (vec![0x00], Command::NoOperation, 0),
        (vec![0x44], Command::Metrics, 0),
        (vec![0x48], Command::DiscardVertexCache, 0),
        (vec![0x40, 1, 2, 3, 4, 5, 6, 7, 8], list, 0),
        (vec![0x90, 1, 2], head, 0),
    ]);
    units
}

/// From every place, so also over the ring's end; the next unit is not told.
#[test]
fn a_look_names_the_unit_and_its_length() {
    for (bytes, command, memory_address) in units() {
        for place in 0..256 {
            let mut bench = bench_at(place);
            bench.feed(&bytes).expect("fed");
            bench.feed(&[0x61, 0x42]).expect("fed");
            let unit = Answer::Unit {
                command,
                memory_address,
                length: bytes.len() as u32,
            };
            assert_eq!(look_and_take(&mut bench), unit);
            assert_eq!(bench.state.window.count(), Ok(2));
        }
    }
}

/// The same waiting, and it changes nothing: every unit cut at every byte.
#[test]
fn a_look_waits_as_a_take_does() {
    for (bytes, ..) in units() {
        for there in 0..bytes.len() {
            let lacking = match there {
                0 => 1,
                1..5 if bytes[0] == 0x10 => 5 - there,
                _ => bytes.len() - there,
            };
            let lacking = lacking as u32;
            for place in [0, 100, 252, 255] {
                let mut bench = bench_at(place);
                bench.feed(&bytes[..there]).expect("fed");
                assert_eq!(look_and_take(&mut bench), Answer::Waiting { lacking });
            }
        }
    }
}

/// A take has the effect of the unit, and a look has not.
#[test]
fn words_and_registers_follow_the_take() {
    let mut bench = bench_at(250);
    bench
        .feed(&[0x10, 0, 1, 0x10, 0x56, 1, 2, 3, 4, 5, 6, 7, 8])
        .expect("fed");
    bench.feed(&[0x61, 0x41, 1, 2, 3]).expect("fed");
    bench.look();
    assert_eq!(bench.xf[0x1056..], [0xAAAA_AAAA; 2]);
    bench.take();
    assert_eq!(bench.xf[0x1056..], [0x0102_0304, 0x0506_0708]);
    bench.look();
    assert_eq!(bench.state.bp[0x41], 0);
    bench.take();
    assert_eq!(bench.state.bp[0x41], 0x01_0203);
}

/// The vertex is told, and its bytes are not in the buffer before it is taken.
#[test]
fn a_vertex_of_an_open_draw() {
    let vertex: Vec<u8> = (1..=12).collect();
    for place in 0..256 {
        let mut bench = bench_at(place);
        open_draw(&mut bench, 0);
        for there in 0..12 {
            let lacking = 12 - there;
            assert_eq!(look_and_take(&mut bench), Answer::Waiting { lacking });
            bench.feed(&vertex[there as usize..][..1]).expect("fed");
        }
        assert_eq!(bench.look(), told(Command::Vertex, 12));
        assert_eq!(bench.vertex, [0x55; 129]);
        assert_eq!(bench.state.draw.map(|draw| draw.left), Some(2));
        assert_eq!(look_and_take(&mut bench), told(Command::Vertex, 12));
        assert_eq!(bench.vertex[..12], vertex);
        assert_eq!(bench.state.draw.map(|draw| draw.left), Some(1));
    }
}

/// 1 to 5 in their order, 2 and 3 too.
#[test]
fn the_first_five_refuse_a_look() {
    let mut bench = bench_at(0);
    bench.feed(&[0x00]).expect("fed");
    bench.state.control = 0x10;
    bench.vertex.truncate(128);
    bench.xf.push(0);
    bench.state.bp[3] = 1 << 24;
    for refusal in [
        Refusal::BrokenState,
        Refusal::XfLength,
        Refusal::VertexBufferShort,
        Refusal::ReadingDisabled,
        Refusal::Linked,
    ] {
        assert_eq!(look_and_take(&mut bench), Answer::Refused(refusal));
        match refusal {
            Refusal::BrokenState => bench.state.bp[3] = 0,
            Refusal::XfLength => bench.xf.truncate(4184),
            Refusal::VertexBufferShort => bench.vertex.push(0),
            Refusal::ReadingDisabled => bench.state.control |= 1,
            _ => bench.state.control = 1,
        }
    }
    assert_eq!(look_and_take(&mut bench), told(Command::NoOperation, 1));
    for (xf, vertex, refusal) in [
        (4183, 129, Refusal::XfLength),
        (0, 0, Refusal::XfLength),
        (4184, 128, Refusal::VertexBufferShort),
        (4184, 0, Refusal::VertexBufferShort),
    ] {
        let mut bench = bench_at(0);
        bench.feed(&[0x00]).expect("fed");
        bench.xf.truncate(xf);
        bench.vertex.truncate(vertex);
        assert_eq!(look_and_take(&mut bench), Answer::Refused(refusal));
    }
}

/// 6 to 10 at the deciding byte, and before it waiting.
#[test]
fn a_unit_that_is_refused_refuses_a_look() {
    let cases: [(&[u8], Refusal); 5] = [
        (&[0x68], Refusal::Opcode),
        (&[0x01], Refusal::Opcode),
        (&[0x08, 0x21], Refusal::CpAddress),
        (&[0x10, 0, 1, 0x10, 0x57], Refusal::XfPastEnd),
        (&[0x91], Refusal::ComponentFormat),
    ];
    for (bytes, refusal) in cases {
        let mut bench = bench_at(254);
        for &byte in bytes {
            assert!(matches!(look_and_take(&mut bench), Answer::Waiting { .. }));
            bench.feed(&[byte]).expect("fed");
        }
        assert_eq!(look_and_take(&mut bench), Answer::Refused(refusal));
    }
    let mut bench = bench_at(254);
    bench.state.cp.vcd[0] = 0;
    bench.feed(&[0x90]).expect("fed");
    let absent = Answer::Refused(Refusal::PositionAbsent);
    assert_eq!(look_and_take(&mut bench), absent);
}

/// "in an open draw 9 and 10 need no byte"
#[test]
fn a_vertex_that_is_refused_refuses_a_look() {
    let mut bench = bench_at(0);
    open_draw(&mut bench, 1);
    let unknown = Answer::Refused(Refusal::ComponentFormat);
    assert_eq!(look_and_take(&mut bench), unknown);
    bench.state.cp.vcd[0] = 0;
    let absent = Answer::Refused(Refusal::PositionAbsent);
    assert_eq!(look_and_take(&mut bench), absent);
}

/// Over streams by chance; the bytes that a unit has are those that go.
#[test]
fn any_stream_is_taken_as_it_is_seen() {
    let mut random = Random(0x5EED_1007);
    for _ in 0..2_000 {
        let mut bench = bench_at(random.below(256));
        let bytes: Vec<u8> = (0..255)
            .map(|_| match random.below(3) {
                0 => [0x00, 0x08, 0x10, 0x28, 0x40, 0x50, 0x61, 0x80][random.below(8) as usize],
                1 => random.below(4) as u8,
                _ => random.next() as u8,
            })
            .collect();
        bench.feed(&bytes).expect("fed");
        let mut held = 255;
        while let Answer::Unit { length, .. } = look_and_take(&mut bench) {
            held -= length;
            assert_eq!(bench.state.window.count(), Ok(held));
        }
    }
}
