//! Calls to text and back by the program `fields`: `texts PROGRAM CALLS` draws that many calls from generated lists, has their fields written as text, the text read as
//! fields, and those written as text again, and compares both. Then bad texts: the program must write the fields of the lines before the bad one and then a field
//! that is cut off, name the line and the column on standard error, and end; nothing behind the bad line is told or written.

use generator::{Rng, calls, profile_of, run};
use model::write;
use std::process::ExitCode;

/// The lengths that a call's value can have, by its tag; ROUND has four.
fn is_call(field: &[u8]) -> bool {
    if field.len() < 3 {
        return false;
    }
    let lengths: &[usize] = match field[0] {
        1 => &[27],
        2 => &[4],
        3 => &[13],
        4 => &[4, 8, 12, 16],
        5 => &[8],
        6 | 9 | 13 => &[0],
        7 | 8 | 10 | 12 => &[5],
        11 => &[1],
        14 => &[6],
        15 => &[3],
        _ => &[],
    };
    lengths.contains(&(field.len() - 3)) && usize::from(u16::from_be_bytes([field[1], field[2]])) == field.len() - 3
}

fn main() -> ExitCode {
    let arguments: Vec<String> = std::env::args().skip(1).collect();
    let [program, count] = &arguments[..] else {
        eprintln!("usage: texts PROGRAM CALLS");
        return ExitCode::from(2);
    };
    let count: usize = count.parse().expect("a number of calls");
    let mut wanted: Vec<Vec<u8>> = Vec::new();
    let mut seed = 0;
    while wanted.len() < count {
        seed += 1;
        wanted.extend(calls(seed, profile_of(seed)).into_iter().filter(|call| is_call(call)));
    }
    wanted.truncate(count);
    let bytes = wanted.concat();
    let text = run(program, &["--text"], bytes.clone());
    let again = run(program, &[], text.stdout.clone());
    let twice = run(program, &["--text"], again.stdout.clone());
    let lines = text.stdout.iter().filter(|&&byte| byte == b'\n').count();
    if !text.status.success()
        || again.stdout != bytes
        || twice.stdout != text.stdout
        || lines != count
        || !again.stderr.is_empty()
    {
        println!("FAILED: {count} calls, {lines} lines, {} of {} bytes", again.stdout.len(), bytes.len());
        return ExitCode::FAILURE;
    }
    println!("{count} calls: fields to text to fields, and text to fields to text, unchanged");
    let mut rng = Rng::new(1);
    let garbage: Vec<u8> = (0..100_000).map(|_| rng.below(256) as u8).filter(|&byte| byte != b'\n').collect();
    let money = "expected an amount of money with a point and two digits behind it, as in 12500.00";
    let price = "expected a price with a point and two digits behind it, as in 12500.00 or -20.00";
    let returned = "a carriage return stands only at the line's end";
    let unnamed = "not the name of a call; a comment begins with #";
    let complete = "the call is complete; a comment begins with #";
    let comma = "a comma stands directly behind a number of a list";
    let ends = "the line ends before the call does";
    let long = "the line is longer than 65536 bytes";
    let bad: Vec<(usize, usize, String, Vec<u8>)> = vec![
        (1, 1, unnamed.into(), b"HEDGE pools 1\n".to_vec()),
        (1, 21, "expected the key units".into(), b"BID pool 0 member 1 price 5.00 units 5\n".to_vec()),
        (1, 9, "expected the key pool, then a space".into(), b"BID pool=0 member 1 price 5.00 units 5\n".to_vec()),
        (1, 19, "the number is too large, at most 65535".into(), b"POOL pool 0 units 70000 mark 0\n".to_vec()),
        (1, 21, money.into(), [&b"PAY member 0 amount "[..], &b"9".repeat(1000), b"\n"].concat()),
        (
            1,
            21,
            "the number is too large, at most 42949672.95".into(),
            [&b"PAY member 0 amount "[..], &b"9".repeat(1000), b".00\n"].concat(),
        ),
        (1, 15, complete.into(), b"MOVE member 1 2\n".to_vec()),
        (1, 65537, long.into(), [b"BID ".repeat(2_500_000), b"\n".to_vec()].concat()),
        (1, 65537, long.into(), [&garbage[..], b"\n"].concat()),
        // the bad line is not the first, and what follows it is not read
        (
            2,
            12,
            "expected the key member".into(),
            b"CLOSE\nBID pool 0 unit 5 member 1 price 5.00\nFINISH\nNONSENSE\n".to_vec(),
        ),
        (4, 7, complete.into(), b"# a comment\nCLOSE\n\nCLOSE ; a comment\n".to_vec()),
        (3, 1, unnamed.into(), b"CLOSE # one\r\n\tCALL\r\n// two\r\nFINISH\r\n".to_vec()),
        (3, 1, unnamed.into(), b"CLOSE\nCALL\nFINISHED".to_vec()),
        (2, 65537, long.into(), [&b"CLOSE\n"[..], &b" ".repeat(70_000), b"\nCALL\n"].concat()),
        // a carriage return
        (1, 6, returned.into(), b"CLOSE\rFINISH\r\n".to_vec()),
        (2, 7, returned.into(), b"CLOSE\n# note\rFINISH\n".to_vec()),
        (1, 21, money.into(), b"PAY member 0 amount 5\r0.00\n".to_vec()),
        (
            2,
            11,
            "the line ends before the call does; expected the key member".into(),
            b"CLOSE\r\nBID pool 0\r\n".to_vec(),
        ),
        // money
        (1, 35, price.into(), b"BID pool 0 member 1 units 5 price -60\n".to_vec()),
        (1, 21, money.into(), b"PAY member 1 amount 1.5\n".to_vec()),
        (1, 25, money.into(), b"PAY member 1 amount 1.500\n".to_vec()),
        (1, 21, money.into(), b"PAY member 1 amount 12,500.00\n".to_vec()),
        (1, 21, money.into(), b"PAY member 1 amount $800\n".to_vec()),
        (1, 21, money.into(), b"PAY member 1 amount .50\n".to_vec()),
        (1, 22, money.into(), b"PAY member 1 amount 1e6\n".to_vec()),
        (1, 21, money.into(), b"PAY member 1 amount -5.00\n".to_vec()),
        (1, 27, "expected a whole number".into(), b"BID pool 0 member 1 units five price 5.00\n".to_vec()),
        (1, 16, price.into(), "ROUND reserves €5.00\n".into()),
        (1, 16, format!("{price}; the minus sign is -"), "ROUND reserves −5.00\n".into()),
        (1, 16, format!("{price}; the minus sign is -"), "ROUND reserves –5.00\n".into()),
        // commas
        (1, 46, comma.into(), b"MEMBER member 0 contribution 1.00 expected 4 ,0,0,0\n".to_vec()),
        (1, 32, comma.into(), b"HEAD pools 1 least 1 members 0 ,1 hedge 0.00\n".to_vec()),
        (1, 46, comma.into(), b"MEMBER member 0 contribution 1.00 expected 4 0\n".to_vec()),
        (1, 32, "expected members by commas, as in 0,1,2".into(), b"HEAD pools 1 least 1 members 0,,1\n".to_vec()),
        // a sale by agreement
        (1, 28, price.into(), b"SALE pool 0 member 1 price -12\n".to_vec()),
        (1, 13, "expected the key member".into(), b"SALE pool 0 price -12.00\n".to_vec()),
        (1, 13, "expected the key member".into(), b"SALE pool 0 units 5 member 1 price -12.00\n".to_vec()),
        (1, 6, "expected the key pool".into(), b"SALE member 1 pool 0 price -12.00\n".to_vec()),
        (1, 22, "expected the key price".into(), b"SALE pool 0 member 1 units 5 price -12.00\n".to_vec()),
        (1, 11, "the number is too large, at most 255".into(), b"SALE pool 256 member 1 price -12.00\n".to_vec()),
        (1, 11, "expected a whole number".into(), b"SALE pool first member 1 price -12.00\n".to_vec()),
        (1, 28, format!("{price}; the minus sign is -"), "SALE pool 0 member 1 price −12.00\n".into()),
        (1, 35, complete.into(), b"SALE pool 0 member 1 price -12.00 5\n".to_vec()),
        (1, 12, format!("{ends}; expected the key member"), b"SALE pool 0\n".to_vec()),
        (1, 27, format!("{ends}; {price}"), b"SALE pool 0 member 1 price\n".to_vec()),
        (1, 1, unnamed.into(), b"SALES pool 0 member 1 price -12.00\n".to_vec()),
        (
            2,
            21,
            format!("{ends}; expected the key price"),
            b"SALE pool 0 member 1 price -12.00\nSALE pool 1 member 1\nFINISH\n".to_vec(),
        ),
        // a bid taken back
        (1, 18, format!("{ends}; expected the key bid"), b"WITHDRAW member 1\n".to_vec()),
        (1, 22, format!("{ends}; expected a whole number"), b"WITHDRAW member 1 bid\n".to_vec()),
        (1, 9, format!("{ends}; expected the key member"), b"WITHDRAW\n".to_vec()),
        (1, 23, "the number is too large, at most 65535".into(), b"WITHDRAW member 1 bid 65536\n".to_vec()),
        (1, 17, "the number is too large, at most 255".into(), b"WITHDRAW member 256 bid 3\n".to_vec()),
        (1, 10, "expected the key member".into(), b"WITHDRAW bid 3 member 1\n".to_vec()),
        (1, 10, "expected the key member".into(), b"WITHDRAW pool 0 member 1 bid 3\n".to_vec()),
        (1, 10, "expected the key member".into(), b"WITHDRAW 1 3\n".to_vec()),
        (1, 19, "expected the key bid".into(), b"WITHDRAW member 1 number 3\n".to_vec()),
        (1, 19, "expected the key bid".into(), b"WITHDRAW member 1 3\n".to_vec()),
        (1, 22, "expected the key bid, then a space".into(), b"WITHDRAW member 1 bid=3\n".to_vec()),
        (1, 23, "expected a whole number".into(), b"WITHDRAW member 1 bid first\n".to_vec()),
        (1, 23, "expected a whole number".into(), b"WITHDRAW member 1 bid -1\n".to_vec()),
        (1, 25, complete.into(), b"WITHDRAW member 1 bid 3 4\n".to_vec()),
        (1, 1, unnamed.into(), b"WITHDRAWN member 1 bid 3\n".to_vec()),
        (1, 1, unnamed.into(), b"WITHDRA member 1 bid 3\n".to_vec()),
        (
            2,
            18,
            format!("{ends}; expected the key bid"),
            b"WITHDRAW member 1 bid 3\nWITHDRAW member 1\nCLOSE\n".to_vec(),
        ),
        // the line's end
        (1, 34, format!("{ends}; {price}"), b"BID pool 0 member 1 units 5 price\n".to_vec()),
        (1, 20, format!("{ends}; expected the key units"), b"BID pool 0 member 1\n".to_vec()),
        (
            1,
            49,
            format!("{ends}; expected a comma and a whole number"),
            b"MEMBER member 0 contribution 1.00 expected 4,0,0\n".to_vec(),
        ),
    ];
    for (line, column, reason, input) in bad {
        let before: Vec<u8> = input.split_inclusive(|&byte| byte == b'\n').take(line - 1).flatten().copied().collect();
        let message = format!("line {line} column {column}: {reason}");
        let fields = run(program, &[], before);
        let wanted = [&fields.stdout[..], b"\x00\xff\xff", message.as_bytes()].concat();
        let output = run(program, &[], input);
        let told = String::from_utf8_lossy(&output.stderr).into_owned();
        if !fields.stderr.is_empty()
            || output.status.code().is_none()
            || output.stdout != wanted
            || told != format!("{message}\n")
        {
            println!("FAILED: {message}: {} bytes on standard output, message {told:?}", output.stdout.len());
            return ExitCode::FAILURE;
        }
        println!("{message}");
    }
    // a space or a tab may stand behind a comma, between words and at a line's ends
    let spaced = b"\tHEAD  pools 1 least 1 members 0, 1,\t2 hedge 0.00 other 0.00 margin 0.20 fund 0.10 house 0.50 \r\nmember member 0 contribution 1.00 expected 4, 0,0,  0 # all\r\n sale\tpool 0 Member  1 price -12.00\t\n\twithdraw  member 1\tBid  65535 # the last\r\nround reserves -0.30, -0.20";
    let plain = b"HEAD pools 1 least 1 members 0,1,2 hedge 0.00 other 0.00 margin 0.20 fund 0.10 house 0.50\nMEMBER member 0 contribution 1.00 expected 4,0,0,0\nSALE pool 0 member 1 price -12.00\nWITHDRAW member 1 bid 65535\nROUND reserves -0.30,-0.20\n";
    let spaced = run(program, &[], spaced.to_vec());
    let plain = run(program, &[], plain.to_vec());
    if spaced.stdout.len() != 72 || spaced.stdout != plain.stdout || !spaced.stderr.is_empty() {
        println!(
            "FAILED: spaces: {} bytes on standard output, message {:?}",
            spaced.stdout.len(),
            String::from_utf8_lossy(&spaced.stderr)
        );
        return ExitCode::FAILURE;
    }
    println!("spaces and tabs behind commas and between words are taken in all lists");
    let written = run(program, &["--text"], write::sale(0, 1, -1200)).stdout;
    if written != b"SALE pool 0 member 1 price -12.00\n" {
        println!("FAILED: a SALE in words: {:?}", String::from_utf8_lossy(&written));
        return ExitCode::FAILURE;
    }
    println!("a SALE is written with pool, member and price");
    let withdrawn = [write::withdraw(1, 3), write::withdraw(0, 0), write::withdraw(255, 65_535)].concat();
    let written = run(program, &["--text"], withdrawn.clone()).stdout;
    let wanted = b"WITHDRAW member 1 bid 3\nWITHDRAW member 0 bid 0\nWITHDRAW member 255 bid 65535\n";
    if written != wanted || run(program, &[], written.clone()).stdout != withdrawn {
        println!("FAILED: WITHDRAWs in words: {:?}", String::from_utf8_lossy(&written));
        return ExitCode::FAILURE;
    }
    println!("a WITHDRAW is written with member and bid, and read");
    // a comment of 32 bytes to a line ends without a bare '#'
    for (length, lines) in [(29, 1), (30, 2), (61, 2), (62, 3)] {
        let mut field = vec![77, 0, length];
        field.resize(usize::from(length) + 3, 0);
        let text = run(program, &["--text"], field).stdout;
        let text = String::from_utf8_lossy(&text).into_owned();
        if text.lines().count() != lines || text.lines().any(|line| line == "#") {
            println!("FAILED: a comment of {} bytes: {text:?}", length + 3);
            return ExitCode::FAILURE;
        }
    }
    println!("comments have 32 bytes to a line, and no line without a byte");
    ExitCode::SUCCESS
}
