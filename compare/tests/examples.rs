//! The examples of the documentation.

use relayref::report::report;

/// The bytes of hexadecimal digits; spaces do not count.
fn hex(digits: &str) -> Vec<u8> {
    let digits: Vec<u32> = digits
        .chars()
        .filter_map(|digit| digit.to_digit(16))
        .collect();
    digits
        .chunks(2)
        .map(|pair| (pair[0] << 4 | pair[1]) as u8)
        .collect()
}

fn small_net() -> Vec<u8> {
    hex("0102 0101 0401 0401 0402 0500000001 0500010001 0502000001
         060101000000 0800312000 080231210200 0901312000
         060101000000 0801312000 0900312000 090231210200
         0A010000 0B0100000001 0B0200000001 0F")
}

/// The small net with one byte changed.
fn changed(at: usize, byte: u8) -> Vec<u8> {
    let mut net = small_net();
    net[at] = byte;
    net
}

const UNMOVED: &str = "cell 0 1\ncell 1 1\ncell 128 1\n";

#[track_caller]
fn check(net: &[u8], trace: &str, expected: &str) {
    assert_eq!(report(net, &hex(trace)), expected);
}

#[test]
fn small_net_faults() {
    assert_eq!(small_net().len(), 86);
    check(&[], "4F", "net fault 2 0 command\n");
    check(&hex("0F"), "4F", "replay 0 done\n");
    check(&changed(1, 0), "4F", "net fault 6 1 command\n");
    check(&changed(0, 0x0E), "4F", "net fault 3 0 command\n");
    check(&changed(0, 0x20), "4F", "net fault 3 0 command\n");
    check(&changed(4, 7), "4F", "net fault 4 4 command\n");
    check(&changed(12, 2), "4F", "net fault 6 12 command\n");
    check(&changed(25, 8), "4F", "net fault 4 25 command\n");
    check(&changed(30, 1), "4F", "net fault 6 30 command\n");
    check(&changed(32, 2), "4F", "net fault 8 35 term\n");
    check(&small_net()[..33], "4F", "net fault 2 33 term\n");
    check(&changed(33, 0x20), "4F", "net fault 3 33 term\n");
    check(&changed(34, 0x24), "4F", "net fault 8 34 term\n");
    check(&changed(35, 1), "4F", "net fault 6 35 term\n");
    check(&changed(71, 1), "4F", "net fault 6 72 command\n");
    check(&small_net()[..85], "4F", "net fault 2 85 command\n");
    let longer = [small_net(), vec![0x0F]].concat();
    check(&longer, "4F", "net fault 10 86 file\n");
    let too_long = vec![0x0F; 65_537];
    check(&too_long, "4F", "net fault 1 65536 file\n");
}

#[test]
fn small_net_claims() {
    let larger = report(&changed(1, 0x40), &hex("4F"));
    assert!(larger.starts_with("claim 0 accepted 128\n"));
    let mut without_arc = small_net();
    without_arc.drain(63..69);
    for (kind, modulus, accepted) in [
        (1, 0, false),
        (2, 0, true),
        (3, 0, false),
        (4, 2, false),
        (5, 0, false),
        (6, 0, true),
    ] {
        without_arc[64] = kind;
        without_arc[66] = modulus;
        let expected = match accepted {
            true => "claim 0 accepted 4\n",
            false => "claim 0 broken 1 0 0 0 0\n",
        };
        let printed = report(&without_arc, &hex("4F"));
        assert!(printed.starts_with(expected), "kind {kind}: {printed}");
    }
}

#[test]
fn small_net_traces() {
    let moved = "cell 1 1\ncell 64 1\n";
    for (trace, replay, cells) in [
        ("400000000000 400001000000 4F", "1 stopped 20 128", moved),
        ("400000000000 4F", "1 done", moved),
        ("400000000000 41 4F", "2 done", UNMOVED),
        ("4F", "0 done", UNMOVED),
        ("", "0 stopped 2 0", UNMOVED),
        ("4002", "0 stopped 2 2", UNMOVED),
        ("400200000000", "0 stopped 17 0", UNMOVED),
        ("400002000000", "0 stopped 18 0", UNMOVED),
        ("400000010000", "0 stopped 18 0", UNMOVED),
        ("41", "0 stopped 23 0", UNMOVED),
        ("4F4F", "0 stopped 10 1", UNMOVED),
        ("400000000000 41 00", "2 stopped 3 7", UNMOVED),
    ] {
        let expected = format!("claim 0 accepted 4\nreplay {replay}\n{cells}");
        check(&small_net(), trace, &expected);
    }
    let expected = format!("claim 0 accepted 4\nreplay 0 stopped 1 65536\n{UNMOVED}");
    assert_eq!(report(&small_net(), &vec![0x42; 65_537]), expected);
}

#[test]
fn output_examples() {
    let net = hex("01 03 02 01 00 00 00 01 01 02 02 00 01 01 01 00 01 00 00");
    check(&net, "", "net fault 2 19 command\n");

    let net = hex("0101 0107 0101 020103000000 020201010100 0F");
    check(&net, "40 00 01 00 FF 00 4F", "replay 0 stopped 17 0\n");

    let net = hex(
        "0102 03010101020202 0401 0401 050000FFFF 050001FFFD 0501000000 0501010000
                   060101000000 0900312000 0901312000 0F",
    );
    assert_eq!(net.len(), 50);
    let trace = "400001000000 400001000000 400001000000 4F";
    let expected = "replay 2 stopped 21 1\ncell 0 65535\ncell 1 65535\ncell 65 2\n";
    check(&net, trace, expected);

    let net = hex(
        "03000001000001 060100000000 0725 2000 2000 060400000000 060100000000
                   0A020000 0A030000 0F",
    );
    assert_eq!(net.len(), 40);
    let trace = "400101000001 41 400100010001 400100010000 400100010100 4F";
    let expected = "claim 0 accepted 19\nclaim 1 accepted 19\nreplay 5 done\n";
    check(&net, trace, expected);
}

#[test]
fn every_kind_of_term() {
    let net = hex(
        "0103 0201010001010200 0202010100000100010001000100 0301010001000100010001 00
                   0401 0401 0500010002 060201010000
                   0725220120002001 2423012001210102
                   0800312000 09003231200133002200 2000 090130
                   0A040003 0B0000000001 0C010200000002 0F",
    );
    assert_eq!(net.len(), 105);
    let claim = "claim 0 broken 0 0 1 0 0\n";
    let expected = format!("{claim}replay 1 done\ncell 0 1\ncell 1 2\n");
    check(&net, "400001000000 4F", &expected);
    let expected = format!("{claim}replay 2 stopped 19 0\ncell 1 2\n");
    check(&net, "400001000000 42 400001010000", &expected);
}

#[test]
fn mistakes_that_mislead() {
    // One token per arc: x is taken, its neighbours are put.
    let net = hex(
        "0103 030101000100010001000100 0401 060101000000 0800312000 090033002000
                   0A010000 0B0000000001 0F",
    );
    check(&net, "4F", "claim 0 broken 0 1 0 0 0\nreplay 0 done\n");

    // Cancelling: takes p, returns p and q; the siphon is p, q.
    let net = hex(
        "0101 0401 0401 060000000000 080031210100 090031210100 090131210100
                   0A060000 0B0000000001 0B0100000001 0F",
    );
    check(&net, "4F", "claim 0 accepted 1\nreplay 0 done\n");

    // A full cell that a token is taken from and put back to.
    let net = hex("0101 0401 050000FFFF 060000000000 080031210100 090031210100 0F");
    check(&net, "400000000000 4F", "replay 1 done\ncell 0 65535\n");
}
