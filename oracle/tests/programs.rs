//! How the two script programs take their input: a message that is read at once loses no byte, and no memory of the heap is
//! needed. The programs are those that `rt run` left in their crates.

use std::io::Write;
use std::net::Shutdown;
use std::os::fd::OwnedFd;
use std::os::unix::net::UnixDatagram;
use std::process::{Command, Stdio};

/// Where the program of this name lies.
fn program(name: &str) -> String {
    format!("{}/../crates/{name}/out/{name}", env!("CARGO_MANIFEST_DIR"))
}

/// What a program writes whose input comes in these messages, each of which one read takes or cuts short.
fn told_in_messages(name: &str, messages: &[&[u8]]) -> Vec<u8> {
    let (near, far) = UnixDatagram::pair().unwrap();
    for message in messages {
        near.send(message).unwrap();
    }
    far.shutdown(Shutdown::Read).unwrap();
    let input = Stdio::from(OwnedFd::from(far));
    let output = Command::new(program(name)).stdin(input).output().unwrap();
    assert!(output.status.success());
    output.stdout
}

#[test]
fn a_message_read_at_once_loses_no_byte() {
    // a power cycle, 1,000 times
    assert_eq!(told_in_messages("chip_script", &[&[2; 1000]]), [0x82; 1000]);
    // size, 1,000 times
    let sizes: Vec<u8> = [0x83, 0x00, 0x20, 0x00].repeat(1000);
    assert_eq!(told_in_messages("board_script", &[&[3; 1000]]), sizes);
    // two messages, the second longer than what was read before
    assert_eq!(
        told_in_messages("chip_script", &[&[2; 512], &[2; 513]]),
        [0x82; 1025]
    );
    // one that is longer than a script is cut at 4,096 bytes
    assert_eq!(told_in_messages("chip_script", &[&[2; 5000]]), [0x82; 4096]);
}

#[test]
fn no_memory_of_the_heap_is_needed() {
    let cases: [(&str, &[u8], &[u8]); 2] = [
        ("chip_script", &[0x01, 0x1F, 0x02], &[0x81, 0x02, 0x82]),
        ("board_script", &[0x03], &[0x83, 0x00, 0x20, 0x00]),
    ];
    for (name, script, answers) in cases {
        // so little memory for data that the heap cannot begin
        let mut child = Command::new("sh")
            .args(["-c", "ulimit -d 160 && exec \"$0\"", &program(name)])
            .stdin(Stdio::piped())
            .stdout(Stdio::piped())
            .spawn()
            .unwrap();
        child.stdin.take().unwrap().write_all(script).unwrap();
        let output = child.wait_with_output().unwrap();
        assert!(output.status.success());
        assert_eq!(output.stdout, answers);
    }
}
