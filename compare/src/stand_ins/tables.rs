/// Entry `i` of the table that both programs are run with. All entries are below 64.
pub(crate) const fn class_of(i: usize) -> u8 {
    ((i * 37 + i / 64) % 64) as u8
}

pub(crate) static PC_WIENER_LUT_TO_CLASS: [u8; 4096] = {
    let mut table = [0; 4096];
    let mut i = 0;
    while i < 4096 {
        table[i] = class_of(i);
        i += 1;
    }
    table
};
