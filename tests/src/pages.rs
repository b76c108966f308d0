//! The library's list of a network, page by page.

use crate::ffi;
use crate::file::Network;

/// Shows each page of so many trees, as far as it is filled; each starts after the last tree of the one before. The network
/// must have a tree.
pub fn each(network: &Network, trees_a_page: usize, show: &mut impl FnMut(&[u16])) {
    let file = network.encode();
    let width = network.width();
    let mut page = vec![0; trees_a_page * width];
    let mut start: Vec<u16> = Vec::new();
    loop {
        let mut answer = [0; 2];
        assert_eq!(ffi::page(&file, &mut page, &start, &mut answer), 0);
        let filled = answer[0] as usize * width;
        show(&page[..filled]);
        if answer[1] == 0 {
            return;
        }
        start.clear();
        start.extend(&page[filled - width..filled]);
    }
}
