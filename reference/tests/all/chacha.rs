//! The stream of storms and made scenarios.

use reference::chacha::block;

#[test]
fn a_block_of_twenty_rounds_is_that_of_the_standard() {
    // RFC 8439, appendix A.1, test vectors 1 and 2: the key of zeros, the places 0 and 1
    let first = block(&[0; 8], 0, 20);
    assert_eq!(first[..4], [0xade0b876, 0x903df1a0, 0xe56a5d40, 0x28bd8653]);
    let second = block(&[0; 8], 1, 20);
    assert_eq!(second[..4], [0xbee7079f, 0x7a385155, 0x7c97ba98, 0x0d082d73]);
}
