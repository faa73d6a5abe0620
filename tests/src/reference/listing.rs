//! The text of a listing.

use super::file::load;
use super::network::Network;

/// The digits of a table in a text: sixteen where some gate of the network has more than four fan-ins.
pub fn digits(s: &Network) -> usize {
    match s.is_wide() {
        true => 16,
        false => 4,
    }
}

pub fn listing(file: &[u8]) -> String {
    match load(file) {
        Ok(s) => rows(&s, digits(&s)),
        Err(number) => format!("refused {number}\n"),
    }
}

/// The listing of a network, with tables of so many digits.
pub fn rows(s: &Network, width: usize) -> String {
    let (h, open) = (s.compatible(), s.open_tables());
    let mut text = String::from("gate cdc full open hidden\n");
    let (mut fulls, mut opens) = (0, 0);
    for g in 0..s.m() {
        let (cdc, full) = (s.cdc(g), s.full(g));
        let hidden = h[g].iter().filter(|&&held| held).count();
        let tables = [cdc, full, open[g]].map(|table| format!("{table:0width$x}"));
        text += &format!("{} {} {hidden}\n", s.n + g, tables.join(" "));
        fulls += full.count_ones();
        opens += open[g].count_ones();
    }
    text + &format!("total {fulls} {opens}\n")
}
